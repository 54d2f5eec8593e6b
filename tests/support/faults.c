/* Runs a command in which one call of the system fails: the K-th of a kind, counted over all processes that it starts.

       faults CALL ERROR K FOLDER COUNT COMMAND..

   CALL is `open`, `write`, `rename`, `fsync`, `fork` or `exec`, and ERROR the number of the error. Of files those count
   that lie below FOLDER; K is 0 where no call is to fail. The file COUNT gets the name of the kind and the number of its
   calls; where CALL is `all`, none fails, and it gets a line for each kind. It needs no right: the kernel stops each process at such a call (seccomp and ptrace, Linux 4.8 and later). A process that is stopped
   so takes no signal, so that no call ends by chance. A `fork` that a signal ends, and the kernel begins again, counts once.

   Status: that of the command, or 128 and its signal; 125 where the kernel does not let it trace. */
#define _GNU_SOURCE
#include <errno.h>
#include <fcntl.h>
#include <linux/audit.h>
#include <linux/filter.h>
#include <linux/sched.h>
#include <linux/seccomp.h>
#include <signal.h>
#include <stddef.h>
#include <stdint.h>
#include <stdio.h>
#include <stdlib.h>
#include <string.h>
#include <sys/prctl.h>
#include <sys/ptrace.h>
#include <sys/syscall.h>
#include <sys/uio.h>
#include <sys/user.h>
#include <sys/wait.h>
#include <unistd.h>

enum { CANNOT = 125, MAX_PATH = 4096, MAX_CALLS = 6, MAX_PROCESSES = 1 << 22 };

/* A call at which a process is stopped. */
struct asked {
    pid_t process;
    long number;
    unsigned long long arguments[6];
};

/* Where a call names its file: a path with the folder that it is relative to, or an open file; or it names none. */
enum place { PATH, FILE_NUMBER, NOWHERE };

struct call {
    long number;
    enum place place;
    int argument;
    int folder_argument;
};

struct kind {
    const char *name;
    struct call calls[MAX_CALLS];
};

enum { HERE = -1 };
static const struct kind KINDS[] = {
    {"open", {{SYS_open, PATH, 0, HERE}, {SYS_creat, PATH, 0, HERE}, {SYS_openat, PATH, 1, 0}, {SYS_openat2, PATH, 1, 0}}},
    {"write",
     {{SYS_write, FILE_NUMBER, 0, HERE},
      {SYS_pwrite64, FILE_NUMBER, 0, HERE},
      {SYS_writev, FILE_NUMBER, 0, HERE},
      {SYS_sendfile, FILE_NUMBER, 0, HERE},
      {SYS_copy_file_range, FILE_NUMBER, 2, HERE}}},
    {"rename", {{SYS_rename, PATH, 1, HERE}, {SYS_renameat, PATH, 3, 2}, {SYS_renameat2, PATH, 3, 2}}},
    {"fsync", {{SYS_fsync, FILE_NUMBER, 0, HERE}, {SYS_fdatasync, FILE_NUMBER, 0, HERE}}},
    {"fork",
     {{SYS_fork, NOWHERE, 0, HERE}, {SYS_vfork, NOWHERE, 0, HERE}, {SYS_clone, NOWHERE, 0, HERE}, {SYS_clone3, NOWHERE, 0, HERE}}},
    {"exec", {{SYS_execve, NOWHERE, 0, HERE}, {SYS_execveat, NOWHERE, 0, HERE}}},
};

enum { KIND_COUNT = sizeof KINDS / sizeof *KINDS };

/* The kinds of a run, which stand side by side in KINDS. */
struct kinds {
    size_t first, end;
};

static struct kinds kinds_of(const char *name) {
    if (strcmp(name, "all") == 0) {
        return (struct kinds){0, KIND_COUNT};
    }
    for (size_t at = 0; at < KIND_COUNT; at++) {
        if (strcmp(KINDS[at].name, name) == 0) {
            return (struct kinds){at, at + 1};
        }
    }
    fprintf(stderr, "faults: there is no call %s\n", name);
    exit(CANNOT);
}

/* Whether an entry of a kind is a call; its last ones may be empty. */
static int is_call(const struct call *call) { return call->number || call->argument || call->folder_argument; }

/* Has the kernel stop this process, and those that it starts, at the calls of these kinds: 0 where it does. */
static int begin_stopping(struct kinds kinds) {
    struct sock_filter filter[2 * MAX_CALLS * KIND_COUNT + 8];
    unsigned short count = 0;
    filter[count++] = (struct sock_filter)BPF_STMT(BPF_LD | BPF_W | BPF_ABS, offsetof(struct seccomp_data, arch));
    filter[count++] = (struct sock_filter)BPF_JUMP(BPF_JMP | BPF_JEQ | BPF_K, AUDIT_ARCH_X86_64, 1, 0);
    filter[count++] = (struct sock_filter)BPF_STMT(BPF_RET | BPF_K, SECCOMP_RET_ALLOW);
    filter[count++] = (struct sock_filter)BPF_STMT(BPF_LD | BPF_W | BPF_ABS, offsetof(struct seccomp_data, nr));
    for (size_t at = kinds.first * MAX_CALLS; at < kinds.end * MAX_CALLS; at++) {
        const struct call *call = &KINDS[at / MAX_CALLS].calls[at % MAX_CALLS];
        if (is_call(call)) {
            filter[count++] = (struct sock_filter)BPF_JUMP(BPF_JMP | BPF_JEQ | BPF_K, (unsigned)call->number, 0, 1);
            filter[count++] = (struct sock_filter)BPF_STMT(BPF_RET | BPF_K, SECCOMP_RET_TRACE);
        }
    }
    filter[count++] = (struct sock_filter)BPF_STMT(BPF_RET | BPF_K, SECCOMP_RET_ALLOW);
    struct sock_fprog program = {count, filter};
    return prctl(PR_SET_NO_NEW_PRIVS, 1, 0, 0, 0) || prctl(PR_SET_SECCOMP, SECCOMP_MODE_FILTER, &program);
}

/* Copies a text of another process: 0 where it has none there. */
static int text_of(pid_t process, unsigned long long address, char *text) {
    size_t length = 0;
    while (length < MAX_PATH - 1) {
        size_t piece = 256 - (address + length) % 256;
        piece = piece < MAX_PATH - 1 - length ? piece : MAX_PATH - 1 - length;
        struct iovec here = {text + length, piece}, there = {(void *)(uintptr_t)(address + length), piece};
        ssize_t count = process_vm_readv(process, &here, 1, &there, 1, 0);
        if (count <= 0) {
            return 0;
        }
        if (memchr(text + length, 0, (size_t)count)) {
            return 1;
        }
        length += (size_t)count;
    }
    return 0;
}

/* Where an entry of /proc leads. */
static int lead_of(pid_t process, const char *entry, int number, char *path) {
    char name[64];
    snprintf(name, sizeof name, number < 0 ? "/proc/%d/%s" : "/proc/%d/%s/%d", process, entry, number);
    ssize_t length = readlink(name, path, MAX_PATH - 1);
    path[length < 0 ? 0 : length] = 0;
    return length > 0;
}

/* The path of the file that a call names: 0 where it cannot be told. */
static int path_of(const struct asked *asked, const struct call *call, char *path) {
    pid_t process = asked->process;
    const unsigned long long *arguments = asked->arguments;
    if (call->place == FILE_NUMBER) {
        return lead_of(process, "fd", (int)arguments[call->argument], path);
    }
    char text[MAX_PATH];
    if (!text_of(process, arguments[call->argument], text)) {
        return 0;
    }
    path[0] = 0;
    if (text[0] != '/') {
        int folder = call->folder_argument == HERE ? AT_FDCWD : (int)arguments[call->folder_argument];
        if (!(folder == AT_FDCWD ? lead_of(process, "cwd", -1, path) : lead_of(process, "fd", folder, path))) {
            return 0;
        }
        strncat(path, "/", MAX_PATH - strlen(path) - 1);
    }
    strncat(path, text, MAX_PATH - strlen(path) - 1);
    return 1;
}

/* Whether a call makes a thread. */
static int is_thread(const struct asked *asked) {
    unsigned long long flags = asked->arguments[0];
    if (asked->number == SYS_clone3) {
        struct iovec here = {&flags, sizeof flags}, there = {(void *)(uintptr_t)flags, sizeof flags};
        if (process_vm_readv(asked->process, &here, 1, &there, 1, 0) != sizeof flags) {
            return 1;
        }
    }
    return asked->number != SYS_fork && asked->number != SYS_vfork && flags & CLONE_THREAD;
}

/* Of each process, whether it has begun a `fork` that is not made yet. */
static unsigned char is_forking[MAX_PROCESSES];

/* Finds a call among these kinds, and its kind; it is there, since the process is stopped at such calls alone. */
static const struct call *find_call(const struct asked *asked, struct kinds kinds, size_t *kind) {
    for (size_t at = kinds.first * MAX_CALLS; at < kinds.end * MAX_CALLS; at++) {
        const struct call *call = &KINDS[at / MAX_CALLS].calls[at % MAX_CALLS];
        if (call->number == asked->number && is_call(call)) {
            *kind = at / MAX_CALLS;
            return call;
        }
    }
    return NULL;
}

/* Whether a call counts. */
static int counts(const struct asked *asked, const struct call *call, int is_fork, const char *folder) {
    char path[MAX_PATH];
    if (call->place == NOWHERE) {
        return !is_fork || (!is_forking[asked->process] && !is_thread(asked));
    }
    return path_of(asked, call, path) && strncmp(path, folder, strlen(folder)) == 0;
}

/* The call at which a process is stopped, and its registers: 0 where it is gone. */
static int read_call(pid_t process, struct user_regs_struct *registers, struct asked *asked) {
    if (ptrace(PTRACE_GETREGS, process, NULL, registers)) {
        return 0;
    }
    *asked = (struct asked){process,
                            (long)registers->orig_rax,
                            {registers->rdi, registers->rsi, registers->rdx, registers->r10, registers->r8, registers->r9}};
    return 1;
}

/* Has the call at which a process is stopped fail, without being made. */
static void fail_call(pid_t process, struct user_regs_struct *registers, int error) {
    registers->orig_rax = (unsigned long long)-1;
    registers->rax = (unsigned long long)-error;
    ptrace(PTRACE_SETREGS, process, NULL, registers);
}

/* Lets a process go on that has stopped: with its signal; or it stays stopped as a group. */
static void go_on(pid_t process, int status) {
    int event = status >> 16, signal = WSTOPSIG(status);
    if (event == PTRACE_EVENT_FORK || event == PTRACE_EVENT_VFORK || event == PTRACE_EVENT_CLONE) {
        is_forking[process] = 0;
    }
    if (event == PTRACE_EVENT_STOP && signal != SIGTRAP) {
        ptrace(PTRACE_LISTEN, process, NULL, NULL);
    } else {
        ptrace(PTRACE_CONT, process, NULL, (void *)(uintptr_t)(event ? 0 : signal));
    }
}

/* Of each kind, how many calls counted. */
static unsigned long made[KIND_COUNT];

/* Counts the call at which a process is stopped, and has it fail if it is the one. */
static void count_call(struct user_regs_struct *registers, const struct asked *asked, struct kinds kinds, char **words) {
    /* (the first `exec` is that of the command itself) */
    static int has_begun = 0;
    size_t kind = 0;
    const struct call *call = find_call(asked, kinds, &kind);
    if (!call) {
        return;
    }
    int is_fork = strcmp(KINDS[kind].name, "fork") == 0, is_first = !has_begun && strcmp(KINDS[kind].name, "exec") == 0;
    int is_failing = !is_first && counts(asked, call, is_fork, words[4]) && ++made[kind] == strtoul(words[3], NULL, 10);
    has_begun = has_begun || is_first;
    if (is_failing) {
        fail_call(asked->process, registers, atoi(words[2]));
    }
    if (is_fork) {
        is_forking[asked->process] = !is_failing;
    }
}

/* Lets the calls be made or fail until no process is left. */
static void watch(pid_t child, struct kinds kinds, char **words, int *child_status) {
    int status = 0;
    for (;;) {
        pid_t process = waitpid(-1, &status, __WALL);
        if (process < 0 && errno != EINTR) {
            return;
        }
        if (process < 0) {
            continue;
        }
        if (!WIFSTOPPED(status)) {
            is_forking[process] = 0;
            *child_status = process == child ? status : *child_status;
            continue;
        }
        struct user_regs_struct registers;
        struct asked asked;
        if (status >> 16 == PTRACE_EVENT_SECCOMP && read_call(process, &registers, &asked)) {
            count_call(&registers, &asked, kinds, words);
        }
        go_on(process, status);
    }
}

/* Starts the command once this process is traced, and does not return. */
static void start(int ready, struct kinds kinds, char **words) {
    char byte;
    if (read(ready, &byte, 1) == 1 && begin_stopping(kinds) == 0) {
        execv(words[6], words + 6);
    }
    _exit(CANNOT);
}

int main(int count, char **words) {
    int ready[2], status = 0;
    if (count < 7 || pipe2(ready, O_CLOEXEC)) {
        fprintf(stderr, "faults: CALL ERROR K FOLDER COUNT COMMAND..\n");
        return CANNOT;
    }
    struct kinds kinds = kinds_of(words[1]);
    pid_t child = fork();
    if (child == 0) {
        close(ready[1]);
        start(ready[0], kinds, words);
    }
    long options = PTRACE_O_TRACESECCOMP | PTRACE_O_TRACEFORK | PTRACE_O_TRACEVFORK | PTRACE_O_TRACECLONE | PTRACE_O_EXITKILL;
    if (child < 0 || ptrace(PTRACE_SEIZE, child, NULL, options) || write(ready[1], "", 1) != 1) {
        return CANNOT;
    }
    watch(child, kinds, words, &status);
    FILE *file = fopen(words[5], "w");
    if (file) {
        for (size_t at = kinds.first; at < kinds.end; at++) {
            fprintf(file, "%s %lu\n", KINDS[at].name, made[at]);
        }
        fclose(file);
    }
    return WIFSIGNALED(status) ? 128 + WTERMSIG(status) : WEXITSTATUS(status);
}
