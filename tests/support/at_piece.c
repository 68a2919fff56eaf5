/* Runs a program, and gives files other names once it has read a piece of a folder:
 *
 *     at_piece PIECE FOLDER NAMES PROGRAM [WORD..]
 *
 * A program reads a folder in pieces (getdents64). Behind the one with the number PIECE, counted from 1 over all readings of FOLDER, the
 * files are renamed that NAMES names: a line with the old path, and one with the new. The new paths of those that were there are written
 * to NAMES.done. Then the program goes on by itself. The status is that of the program; 125 if it cannot be followed. */
#include <limits.h>
#include <stdio.h>
#include <stdlib.h>
#include <string.h>
#include <sys/ptrace.h>
#include <sys/syscall.h>
#include <sys/wait.h>
#include <unistd.h>

/* Whether this file of the process is the folder. */
static int is_folder(pid_t process, unsigned long file, const char *folder) {
    char link[64], path[PATH_MAX];
    snprintf(link, sizeof link, "/proc/%d/fd/%lu", (int)process, file);
    ssize_t length = readlink(link, path, sizeof path - 1);
    return length >= 0 && (size_t)length == strlen(folder) && memcmp(path, folder, length) == 0;
}

/* Renames the files that a list names; gives whether the list could be read. */
static int rename_all(const char *names) {
    char from[PATH_MAX], to[PATH_MAX];
    snprintf(to, sizeof to, "%s.done", names);
    FILE *list = fopen(names, "r"), *done = fopen(to, "w");
    if (!list || !done)
        return 0;
    while (fgets(from, sizeof from, list) && fgets(to, sizeof to, list)) {
        from[strcspn(from, "\n")] = to[strcspn(to, "\n")] = 0;
        if (rename(from, to) == 0)
            fprintf(done, "%s\n", to);
    }
    fclose(list);
    return fclose(done) == 0;
}

/* The exit status that a wait tells. */
static int exit_of(int status) {
    return WIFEXITED(status) ? WEXITSTATUS(status) : 128 + WTERMSIG(status);
}

/* Follows the process up to its next stop; gives the status if it has ended, else -1. */
static int step(pid_t process, int signal, int *status) {
    if (ptrace(PTRACE_SYSCALL, process, 0, signal) < 0 || waitpid(process, status, 0) < 0)
        return 125;
    return WIFSTOPPED(*status) ? -1 : exit_of(*status);
}

/* Lets the process go, and waits for its end. */
static int let_go(pid_t process) {
    int status;
    ptrace(PTRACE_DETACH, process, 0, 0);
    return waitpid(process, &status, 0) < 0 ? 125 : exit_of(status);
}

/* Follows the process to the piece, and renames the files there; gives its status. */
static int follow(pid_t process, int piece, const char *folder, const char *names) {
    int status, ended, reads = 0, pieces = 0, signal = 0;
    while ((ended = step(process, signal, &status)) < 0) {
        struct __ptrace_syscall_info call;
        signal = 0;
        if (WSTOPSIG(status) != (SIGTRAP | 0x80)) {
            signal = WSTOPSIG(status) == SIGTRAP ? 0 : WSTOPSIG(status);
            continue;
        }
        if (ptrace(PTRACE_GET_SYSCALL_INFO, process, sizeof call, &call) < 0)
            return 125;
        if (call.op == PTRACE_SYSCALL_INFO_ENTRY)
            reads = call.entry.nr == SYS_getdents64 && is_folder(process, call.entry.args[0], folder);
        else if (reads && call.op == PTRACE_SYSCALL_INFO_EXIT && call.exit.rval > 0 && ++pieces == piece) {
            return rename_all(names) ? let_go(process) : 125;
        }
    }
    return ended;
}

int main(int count, char **words) {
    int status;
    if (count < 5)
        return 125;
    pid_t process = fork();
    if (process == 0) {
        ptrace(PTRACE_TRACEME, 0, 0, 0);
        execv(words[4], words + 4);
        _exit(125);
    }
    if (process < 0 || waitpid(process, &status, 0) < 0 || !WIFSTOPPED(status))
        return 125;
    if (ptrace(PTRACE_SETOPTIONS, process, 0, PTRACE_O_TRACESYSGOOD | PTRACE_O_EXITKILL) < 0)
        return 125;
    return follow(process, atoi(words[1]), words[2], words[3]);
}
