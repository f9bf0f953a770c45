/* Loaded into the tool before the C library. Notes in $MEANWHILE_LOG what is
 * done to a file besides writing, with the mode it has until then, and runs
 * $MEANWHILE_RUN once, when the new file is written and not yet renamed. */
#define _GNU_SOURCE
#include <fcntl.h>
#include <stdio.h>
#include <stdlib.h>
#include <sys/stat.h>
#include <sys/syscall.h>
#include <sys/wait.h>
#include <unistd.h>

static void note(const char *what, int descriptor)
{
    const char *name = getenv("MEANWHILE_LOG");
    struct stat found;
    FILE *log;

    if (name == NULL || fstat(descriptor, &found) != 0)
        return;
    log = fopen(name, "a");
    if (log == NULL)
        return;
    fprintf(log, "%s %s %o\n", what, S_ISDIR(found.st_mode) ? "folder" : "file",
            (unsigned)found.st_mode & 07777);
    fclose(log);
}

static void run(void)
{
    const char *command = getenv("MEANWHILE_RUN");
    int status;
    pid_t shell;

    if (command == NULL)
        return;
    shell = fork();
    if (shell == 0) {
        unsetenv("LD_PRELOAD");
        execl("/bin/sh", "sh", "-ec", command, (char *)NULL);
        _exit(127);
    }
    unsetenv("MEANWHILE_RUN");
    if (shell < 0 || waitpid(shell, &status, 0) != shell || status != 0)
        abort();
}

int fsync(int descriptor)
{
    note("fsync", descriptor);
    run();
    return (int)syscall(SYS_fsync, descriptor);
}

int fchmod(int descriptor, mode_t mode)
{
    note("fchmod", descriptor);
    return (int)syscall(SYS_fchmod, descriptor, mode);
}

int fchown(int descriptor, uid_t user, gid_t group)
{
    note("fchown", descriptor);
    return (int)syscall(SYS_fchown, descriptor, user, group);
}

int rename(const char *from, const char *to)
{
    int descriptor = open(from, O_RDONLY | O_CLOEXEC);

    note("rename", descriptor);
    if (descriptor >= 0)
        close(descriptor);
    return (int)syscall(SYS_renameat2, AT_FDCWD, from, AT_FDCWD, to, 0);
}
