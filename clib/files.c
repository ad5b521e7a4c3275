/* Files as log messages: FLST with what is said of the file, FLDA for each package, FLFI at the end, as viewers of DLT know them. */
#include "inside.h"

#include "dlt/dlt_filetransfer.h"

#include <stdio.h>
#include <string.h>
#include <sys/stat.h>
#include <time.h>

enum { PACKAGE_BYTES = 1024, FAILED = -1, PATIENCE = 1000 };

/* what is said of a file; its number tells it from others */
typedef struct {
    uint32_t number, size, packages;
    char made[32];
} File;

static bool look(const char *path, File *file) {
    struct stat found;
    if (!path || stat(path, &found) || !S_ISREG(found.st_mode) || found.st_size > UINT32_MAX)
        return false;
    file->number = (uint32_t)((uint64_t)found.st_ino << 16) ^ (uint32_t)found.st_size ^ (uint32_t)found.st_ctime;
    file->size = (uint32_t)found.st_size;
    file->packages = (file->size + PACKAGE_BYTES - 1) / PACKAGE_BYTES;
    struct tm at;
    return gmtime_r(&found.st_ctime, &at) && asctime_r(&at, file->made);
}

static void rest(int milliseconds) {
    struct timespec pause = {milliseconds / 1000, milliseconds % 1000 * 1000000L};
    if (milliseconds > 0)
        nanosleep(&pause, NULL);
}

EXPORT int dlt_user_log_file_packagesCount(DltContext *context, const char *path) {
    File file;
    (void)context;
    return look(path, &file) ? (int)file.packages : FAILED;
}

EXPORT int dlt_user_log_file_infoAbout(DltContext *context, const char *path) {
    File file;
    if (!look(path, &file))
        return FAILED;
    DLT_LOG(*context, DLT_LOG_INFO, DLT_STRING("FLIF"), DLT_STRING("file serial number"), DLT_UINT(file.number), DLT_STRING("filename"), DLT_STRING(path),
            DLT_STRING("file size in bytes"), DLT_UINT(file.size), DLT_STRING("file creation date"), DLT_STRING(file.made), DLT_STRING("number of packages"),
            DLT_UINT(file.packages), DLT_STRING("FLIF"));
    return 0;
}

EXPORT int dlt_user_log_file_header_alias(DltContext *context, const char *path, const char *name) {
    File file;
    if (!name || !look(path, &file))
        return FAILED;
    DLT_LOG(*context, DLT_LOG_INFO, DLT_STRING("FLST"), DLT_UINT(file.number), DLT_STRING(name), DLT_UINT(file.size), DLT_STRING(file.made),
            DLT_UINT(file.packages), DLT_UINT(PACKAGE_BYTES), DLT_STRING("FLST"));
    return 0;
}

EXPORT int dlt_user_log_file_header(DltContext *context, const char *path) { return dlt_user_log_file_header_alias(context, path, path); }

/* One package, once the queue is at most half full, or after ten seconds. */
static bool send_package(DltContext *context, const File *file, FILE *from, uint32_t package) {
    unsigned char bytes[PACKAGE_BYTES];
    int total = 0, used = 0;
    if (fseek(from, (long)(package - 1) * PACKAGE_BYTES, SEEK_SET))
        return false;
    size_t len = fread(bytes, 1, PACKAGE_BYTES, from);
    for (int turn = 0; turn < PATIENCE && dlt_user_check_buffer(&total, &used) == DLT_RETURN_OK && used > total / 2; turn++)
        rest(10);
    DLT_LOG(*context, DLT_LOG_INFO, DLT_STRING("FLDA"), DLT_UINT(file->number), DLT_UINT(package), DLT_RAW(bytes, (uint16_t)len), DLT_STRING("FLDA"));
    return len > 0;
}

EXPORT int dlt_user_log_file_data(DltContext *context, const char *path, int package, int milliseconds) {
    File file;
    if (!look(path, &file) || package < 1 || (package != INT_MAX && (uint32_t)package > file.packages))
        return FAILED;
    FILE *from = fopen(path, "rb");
    if (!from)
        return FAILED;
    bool all = true;
    uint32_t first = package == INT_MAX ? 1 : (uint32_t)package, last = package == INT_MAX ? file.packages : first;
    for (uint32_t each = first; all && each <= last; each++) {
        all = send_package(context, &file, from, each);
        rest(milliseconds);
    }
    fclose(from);
    return all ? 0 : FAILED;
}

EXPORT int dlt_user_log_file_end(DltContext *context, const char *path, int removes) {
    File file;
    if (!look(path, &file))
        return FAILED;
    DLT_LOG(*context, DLT_LOG_INFO, DLT_STRING("FLFI"), DLT_UINT(file.number), DLT_STRING("FLFI"));
    return removes && remove(path) ? FAILED : 0;
}

EXPORT int dlt_user_log_file_complete(DltContext *context, const char *path, int removes, int milliseconds) {
    int answer = dlt_user_log_file_header(context, path);
    if (answer == 0)
        answer = dlt_user_log_file_data(context, path, INT_MAX, milliseconds);
    return answer ? answer : dlt_user_log_file_end(context, path, removes);
}
