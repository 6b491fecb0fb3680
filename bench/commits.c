/* Makes commits of segments of six files in an empty folder, by the calls that `tv` makes on the folder for the
   same script, in the same order and on the same names, and leaves the same files. It tells no lines. */
#define _GNU_SOURCE
#include <fcntl.h>
#include <limits.h>
#include <stdint.h>
#include <stdio.h>
#include <stdlib.h>
#include <string.h>
#include <sys/file.h>
#include <sys/stat.h>
#include <unistd.h>

enum { FILES = 6, ROOM = 64 };

/* In the order of the names, so that a new name of the list is its last one but for `meta.json`. */
static const char *const EXTENSIONS[FILES] = {"fast", "fieldnorm", "idx", "pos", "store", "term"};

/* The order in which a commit asks whether its files are there. */
static const char *const REQUIRED[FILES] = {"idx", "pos", "fast", "fieldnorm", "term", "store"};

static const char *folder;
static int handle;

/* The list's names without `meta.json`, each with a comma behind it. */
static char *names;
static size_t used;

/* Ends the program where a call was refused. */
static int checked(int answer, const char *what)
{
    if (answer < 0) {
        perror(what);
        exit(EXIT_FAILURE);
    }
    return answer;
}

static const char *path_of(char path[PATH_MAX], const char *name)
{
    snprintf(path, PATH_MAX, "%s/%s", folder, name);
    return path;
}

static void sync_folder(void)
{
    checked(fsync(handle), "fsync");
}

static void ask(const char *name)
{
    char path[PATH_MAX];
    struct statx found;

    (void)statx(AT_FDCWD, path_of(path, name), 0, STATX_BASIC_STATS, &found);
}

static int opened(const char *name, int flags)
{
    char path[PATH_MAX];

    return checked(open(path_of(path, name), flags | O_CLOEXEC, 0666), name);
}

/* Writes the bytes in one call, makes them durable, and closes the file. */
static void seal(int file, const char *bytes, size_t len)
{
    if (write(file, bytes, len) != (ssize_t)len)
        checked(-1, "write");
    checked(fdatasync(file), "fdatasync");
    checked(close(file), "close");
}

static void replace(const char *name, const char *bytes, size_t len)
{
    char from[PATH_MAX], to[PATH_MAX];

    seal(opened(".new-0", O_WRONLY | O_CREAT | O_EXCL), bytes, len);
    checked(rename(path_of(from, ".new-0"), path_of(to, name)), "rename");
}

static void save_list(void)
{
    static const char last[] = "\"meta.json\"]\n";

    memcpy(names + used, last, sizeof last);
    replace(".managed.json", names, used + sizeof last - 1);
    sync_folder();
}

static uint32_t crc32(const char *bytes, size_t len)
{
    uint32_t crc = UINT32_MAX;

    for (size_t i = 0; i < len; i++) {
        crc ^= (unsigned char)bytes[i];
        for (int bit = 0; bit < 8; bit++)
            crc = crc >> 1 ^ (crc & 1 ? UINT32_C(0xedb88320) : 0);
    }
    return ~crc;
}

/* Makes a file of a segment, lists it first, and seals it with its footer. */
static void make_file(unsigned commit, const char *extension)
{
    const char *body = strcmp(extension, "idx") == 0 ? "a" : "";
    const uint32_t magic = 1337;
    char name[ROOM], bytes[256];
    size_t len = strlen(body);
    uint32_t json;
    int file;

    snprintf(name, sizeof name, "%032x.%s", commit, extension);
    ask(name);
    used += (size_t)sprintf(names + used, "\"%s\",", name);
    save_list();
    file = opened(name, O_WRONLY | O_CREAT | O_EXCL);
    memcpy(bytes, body, len);
    json = (uint32_t)sprintf(bytes + len,
        "{\"version\":{\"major\":0,\"minor\":26,\"patch\":2,\"index_format_version\":7},\"crc\":%u}", crc32(body, len));
    /* Both numbers stand with their lowest byte first, as on each machine that has a build of `tv`. */
    memcpy(bytes + len + json, &json, sizeof json);
    memcpy(bytes + len + json + sizeof json, &magic, sizeof magic);
    seal(file, bytes, len + json + sizeof json + sizeof magic);
}

/* Makes a commit of one segment the current one, or at 0 the first commit, of none. */
static void publish(unsigned commit)
{
    char text[512], segment[ROOM * 2] = "", name[ROOM];

    if (commit == 0) {
        sync_folder();
        save_list();
    } else {
        snprintf(segment, sizeof segment,
            "{\"segment_id\":\"00000000-0000-0000-0000-%012x\",\"max_doc\":1,\"deletes\":null}", commit);
        for (int i = 0; i < FILES; i++) {
            snprintf(name, sizeof name, "%032x.%s", commit, REQUIRED[i]);
            ask(name);
        }
        sync_folder();
    }
    snprintf(text, sizeof text,
        "{\"index_settings\":{\"docstore_compression\":\"none\",\"docstore_blocksize\":16384},"
        "\"segments\":[%s],\"schema\":[],\"opstamp\":%u}\n", segment, commit);
    replace("meta.json", text, strlen(text));
    sync_folder();
}

/* Deletes the files of a segment, whose names are the first ones of the list. */
static void collect(unsigned commit)
{
    int lock = opened(".tantivy-meta.lock", O_WRONLY | O_CREAT);
    size_t gone = 0;

    checked(flock(lock, LOCK_EX), "flock");
    checked(close(lock), "close");
    sync_folder();
    for (int i = 0; i < FILES; i++) {
        char name[ROOM], path[PATH_MAX];

        gone += (size_t)snprintf(name, sizeof name, "%032x.%s", commit, EXTENSIONS[i]) + strlen("\"\",");
        checked(unlink(path_of(path, name)), name);
    }
    sync_folder();
    used -= gone;
    memmove(names + 1, names + 1 + gone, used - 1);
    save_list();
}

int main(int count, char **words)
{
    unsigned commits;
    struct statx found;
    char path[PATH_MAX];
    int lock;

    if (count < 3)
        return EXIT_FAILURE;
    folder = words[1];
    commits = (unsigned)strtoul(words[2], NULL, 10);
    names = malloc((size_t)(commits + 1) * FILES * ROOM);
    if (names == NULL)
        return EXIT_FAILURE;
    names[used++] = '[';

    /* The opening looks for an index, makes one, and takes the lock of the writer. */
    checked(statx(AT_FDCWD, folder, 0, STATX_BASIC_STATS, &found), folder);
    handle = checked(open(folder, O_RDONLY | O_CLOEXEC), folder);
    sync_folder();
    (void)open(path_of(path, ".managed.json"), O_RDONLY | O_CLOEXEC);
    (void)open(path_of(path, "meta.json"), O_RDONLY | O_CLOEXEC);
    publish(0);
    lock = opened(".tantivy-writer.lock", O_WRONLY | O_CREAT);
    checked(flock(lock, LOCK_EX | LOCK_NB), "flock");

    for (unsigned commit = 1; commit <= commits; commit++) {
        for (int i = 0; i < FILES; i++)
            make_file(commit, EXTENSIONS[i]);
        publish(commit);
        if (count > 3 && commit > 1)
            collect(commit - 1);
    }
    checked(close(lock), "close");
    checked(close(handle), "close");
    free(names);
    return EXIT_SUCCESS;
}
