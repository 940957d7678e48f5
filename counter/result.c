/* A result's file: it is there whole, or as it was before. */
#define _GNU_SOURCE /* statx */
#include "desk.h"

#include <errno.h>
#include <fcntl.h>
#include <stdio.h>
#include <stdlib.h>
#include <string.h>
#include <sys/stat.h>
#include <unistd.h>

/* So many leftovers of programs that were killed are passed by. */
enum { ATTEMPTS = 100 };

/* Why the name can't be renamed over, or NULL. Over a device or a link a rename would put a file in its place, and that of
 * /dev/null or /dev/stdout is the whole machine's. statx, since struct stat differs between x86-64 and Arm. */
static const char *why_not_replaced(const char *name)
{
    struct statx found;
    if (statx(AT_FDCWD, name, AT_SYMLINK_NOFOLLOW, STATX_TYPE, &found) != 0 || S_ISREG(found.stx_mode))
        return NULL;
    return S_ISDIR(found.stx_mode) ? strerror(EISDIR) : "not a regular file";
}

/* A name in the same folder. It does not grow with the result's name, which may be as long as a name can be. */
static char *name_beside(const char *name, int attempt)
{
    const char *slash = strrchr(name, '/');
    int folder = slash == NULL ? 0 : (int)(slash + 1 - name);
    size_t room = (size_t)folder + sizeof ".counter--" + 2 * sizeof "2147483647";
    char *beside = malloc(room);
    if (beside != NULL)
        snprintf(beside, room, "%.*s.counter-%ld-%d", folder, name, (long)getpid(), attempt);
    return beside;
}

/* A file that was not there before, with the rights of any new file. Its name is the caller's to free. */
static FILE *create_beside(const char *name, char **beside)
{
    for (int attempt = 0; attempt < ATTEMPTS; attempt++) {
        *beside = name_beside(name, attempt);
        FILE *file = *beside == NULL ? NULL : fopen(*beside, "wbx");
        if (file != NULL)
            return file;
        int reason = errno;
        free(*beside);
        errno = reason;
        if (reason != EEXIST)
            break;
    }
    return NULL;
}

/* Closes it in any case, and keeps the first failure's reason. */
static bool fill(FILE *file, const uint8_t *bytes, size_t length)
{
    bool filled = fwrite(bytes, 1, length, file) == length && fflush(file) == 0 && fsync(fileno(file)) == 0;
    int reason = errno;
    bool closed = fclose(file) == 0;
    if (!filled)
        errno = reason;
    return filled && closed;
}

static bool replace(const char *name, const uint8_t *bytes, size_t length)
{
    char *beside;
    FILE *file = create_beside(name, &beside);
    if (file == NULL)
        return false;
    bool replaced = fill(file, bytes, length) && rename(beside, name) == 0;
    int reason = errno;
    if (!replaced)
        remove(beside);
    free(beside);
    errno = reason;
    return replaced;
}

bool write_result(const char *name, const uint8_t *bytes, size_t length)
{
    const char *reason = why_not_replaced(name);
    if (reason == NULL && !replace(name, bytes, length))
        reason = strerror(errno);
    if (reason != NULL)
        fprintf(stderr, "counter: %s: %s\n", name, reason);
    return reason == NULL;
}
