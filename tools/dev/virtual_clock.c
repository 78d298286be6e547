/* A virtual clock for a program's threads, preloaded: `bench-workers --virtual` builds it. Threads run one at a time,
 * each as long as its virtual time is the least, and its time goes on by the processor time that it used. So a run by
 * many threads is timed as if each had a processor of its own, on a machine that has no idle ones. What the machine's
 * caches and its memory would do to threads that do run at once isn't in these figures.
 *
 * Threads change places where they wait, wake others, ask for memory after a third of a millisecond, or end. The
 * program waits and wakes by futex calls through `syscall`. At its end the file $VIRTUAL_CLOCK gets a line: the virtual
 * seconds of the first thread, the processor seconds of all, how many threads there were. */
#define _GNU_SOURCE
#include <dlfcn.h>
#include <errno.h>
#include <linux/futex.h>
#include <pthread.h>
#include <stdarg.h>
#include <stdint.h>
#include <stdio.h>
#include <stdlib.h>
#include <sys/syscall.h>
#include <time.h>
#include <x86intrin.h>

enum { MOST = 4096, CYCLES = 1000000 };
enum mode { READY, WAITING, DONE };

/* `on` is what a thread waits for; `until` is when it stops to wait, where it isn't for ever. */
struct thread {
    enum mode mode;
    uint64_t time, busy, until;
    const void *on;
    pthread_cond_t turn;
    pthread_t real;
    void *(*start)(void *);
    void *argument;
};

static struct thread threads[MOST] = {{.turn = PTHREAD_COND_INITIALIZER}};
static int count = 1, current = 0;
static pthread_mutex_t lock = PTHREAD_MUTEX_INITIALIZER;
static __thread int me = -1;
static __thread uint64_t since, cycles;

static uint64_t processor_time(void) {
    struct timespec now;
    clock_gettime(CLOCK_THREAD_CPUTIME_ID, &now);
    return now.tv_sec * 1000000000ull + now.tv_nsec;
}

static void resume(void) {
    since = processor_time();
    cycles = __rdtsc();
}

/* The lock is held by whoever calls this and what follows. */
static void charge(void) {
    uint64_t used = processor_time() - since;
    threads[me].time += used;
    threads[me].busy += used;
    since += used;
}

static uint64_t due(const struct thread *thread) {
    return thread->mode == READY ? thread->time : thread->mode == WAITING ? thread->until : UINT64_MAX;
}

static void choose(void) {
    int best = 0;
    for (int i = 1; i < count; i++)
        if (due(&threads[i]) < due(&threads[best])) best = i;
    if (due(&threads[best]) == UINT64_MAX) {
        fprintf(stderr, "virtual clock: all threads wait\n");
        abort();
    }
    current = best;
    pthread_cond_signal(&threads[best].turn);
}

static void pass(void) {
    choose();
    while (current != me) pthread_cond_wait(&threads[me].turn, &lock);
    resume();
}

/* Waits for it; whether it came, and not the time. */
static int await(const void *on, uint64_t until) {
    struct thread *own = &threads[me];
    own->mode = WAITING, own->on = on, own->until = until;
    pass();
    int came = own->mode == READY;
    if (!came) own->mode = READY, own->time = until;
    return came;
}

static long wake(const void *on, long most) {
    long woken = 0;
    for (int i = 0; i < count && woken < most; i++)
        if (threads[i].mode == WAITING && threads[i].on == on) {
            threads[i].mode = READY;
            if (threads[i].time < threads[me].time) threads[i].time = threads[me].time;
            woken++;
        }
    return woken;
}

static void tick(void) {
    if (me < 0 || count == 1) return;
    pthread_mutex_lock(&lock);
    charge();
    pass();
    pthread_mutex_unlock(&lock);
}

static uint64_t end_of(const struct timespec *limit, int operation) {
    if (limit == NULL) return UINT64_MAX;
    uint64_t given = limit->tv_sec * 1000000000ull + limit->tv_nsec;
    if ((operation & FUTEX_CMD_MASK) == FUTEX_WAIT) return threads[me].time + given;
    struct timespec now;
    clock_gettime(operation & FUTEX_CLOCK_REALTIME ? CLOCK_REALTIME : CLOCK_MONOTONIC, &now);
    uint64_t real = now.tv_sec * 1000000000ull + now.tv_nsec;
    return threads[me].time + (given > real ? given - real : 0);
}

long syscall(long number, ...) {
    static long (*real)(long, ...);
    if (!real) real = (long (*)(long, ...))dlsym(RTLD_NEXT, "syscall");
    va_list rest;
    va_start(rest, number);
    long a = va_arg(rest, long), b = va_arg(rest, long), c = va_arg(rest, long);
    long d = va_arg(rest, long), e = va_arg(rest, long), f = va_arg(rest, long);
    va_end(rest);
    int operation = b & FUTEX_CMD_MASK;
    if (number != SYS_futex || me < 0) return real(number, a, b, c, d, e, f);
    if (operation == FUTEX_WAKE || operation == FUTEX_WAKE_BITSET) {
        pthread_mutex_lock(&lock);
        charge();
        long woken = wake((void *)a, c);
        pass();
        pthread_mutex_unlock(&lock);
        return woken;
    }
    if (operation == FUTEX_WAIT || operation == FUTEX_WAIT_BITSET) {
        pthread_mutex_lock(&lock);
        charge();
        int fault = 0;
        if (*(volatile uint32_t *)a != (uint32_t)c)
            fault = EAGAIN;
        else if (!await((void *)a, end_of((struct timespec *)d, b)))
            fault = ETIMEDOUT;
        pthread_mutex_unlock(&lock);
        errno = fault;
        return fault ? -1 : 0;
    }
    return real(number, a, b, c, d, e, f);
}

static void *begin(void *own) {
    me = (struct thread *)own - threads;
    pthread_mutex_lock(&lock);
    while (current != me) pthread_cond_wait(&threads[me].turn, &lock);
    resume();
    pthread_mutex_unlock(&lock);
    void *answer = threads[me].start(threads[me].argument);
    pthread_mutex_lock(&lock);
    charge();
    threads[me].mode = DONE;
    wake(&threads[me], MOST);
    choose();
    pthread_mutex_unlock(&lock);
    return answer;
}

int pthread_create(pthread_t *thread, const pthread_attr_t *attributes, void *(*start)(void *), void *argument) {
    typedef int create(pthread_t *, const pthread_attr_t *, void *(*)(void *), void *);
    create *real = (create *)dlsym(RTLD_NEXT, "pthread_create");
    pthread_mutex_lock(&lock);
    charge();
    if (count == MOST) {
        pthread_mutex_unlock(&lock);
        return EAGAIN;
    }
    struct thread *made = &threads[count];
    made->time = threads[me].time, made->start = start, made->argument = argument;
    pthread_cond_init(&made->turn, NULL);
    int fault = real(&made->real, attributes, begin, made);
    if (!fault) *thread = made->real, count++;
    pthread_mutex_unlock(&lock);
    return fault;
}

int pthread_join(pthread_t thread, void **answer) {
    static int (*real)(pthread_t, void **);
    if (!real) real = (int (*)(pthread_t, void **))dlsym(RTLD_NEXT, "pthread_join");
    pthread_mutex_lock(&lock);
    for (int i = 0; i < count; i++)
        if (pthread_equal(threads[i].real, thread) && threads[i].mode != DONE) {
            charge();
            await(&threads[i], UINT64_MAX);
        }
    pthread_mutex_unlock(&lock);
    return real(thread, answer);
}

int sched_yield(void) {
    tick();
    return 0;
}

void *malloc(size_t size) {
    extern void *__libc_malloc(size_t);
    if (me >= 0 && __rdtsc() - cycles > CYCLES) tick();
    return __libc_malloc(size);
}

__attribute__((constructor)) static void open_clock(void) {
    me = 0;
    threads[0].real = pthread_self();
    resume();
}

static void tell(void) {
    if (me < 0 || !getenv("VIRTUAL_CLOCK")) return;
    charge();
    uint64_t busy = 0;
    for (int i = 0; i < count; i++) busy += threads[i].busy;
    FILE *file = fopen(getenv("VIRTUAL_CLOCK"), "w");
    if (file) fprintf(file, "%.3f %.3f %d\n", threads[me].time / 1e9, busy / 1e9, count), fclose(file);
}

/* The program ends by this call. */
void _exit(int status) {
    tell();
    static long (*real)(long, ...);
    real = (long (*)(long, ...))dlsym(RTLD_NEXT, "syscall");
    real(SYS_exit_group, (long)status);
    __builtin_unreachable();
}
