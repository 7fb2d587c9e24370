/* A writer's life: it is started, listened to and killed. */
#define _GNU_SOURCE
#include <fcntl.h>
#include <signal.h>
#include <stdarg.h>
#include <stdio.h>
#include <string.h>
#include <sys/wait.h>
#include <time.h>
#include <unistd.h>

#include "crash.h"

enum { NAP = 500000, SPIN = 30000 }; /* nanoseconds: between two looks into the pipe; before the kill, without sleep */

__attribute__((format(printf, 2, 3))) static void complain(struct life *life, const char *format, ...)
{
    va_list numbers;
    va_start(numbers, format);
    if (life->complaint[0] == 0)
        vsnprintf(life->complaint, sizeof life->complaint, format, numbers);
    va_end(numbers);
}

static void spoil(struct records *records)
{
    memset(records, 0, sizeof *records);
    memset(&records->shared, 0xFF, sizeof records->shared);
    memset(records->points, 0xFF, sizeof records->points);
}

void life_start(struct life *life, const struct session *session, const struct book *book, struct records *records, int early)
{
    int ends[2];
    must(pipe(ends) == 0 && fcntl(ends[0], F_SETFL, O_NONBLOCK) == 0, "a pipe");
    spoil(records);
    *life = (struct life){.pipe = ends[0], .start = now()};
    life->process = fork();
    must(life->process >= 0, "a writer");
    if (life->process == 0) {
        close(ends[0]);
        write_on(session, book->next, image_map(session->blocks, 1), records, ends[1], early);
    }
    close(ends[1]);
}

static void take_message(struct life *life, const struct session *session, struct book *book, const struct message *message)
{
    uint32_t point = message->point, value = message->value;
    if (message->kind == FULL)
        life->full = 1;
    else if (message->kind == STRANGE)
        complain(life, "%.8s of point %u answers %u", message->call, point, value);
    else if (point >= session->points || value != book->next[point] || book->count == LOG_MOST)
        complain(life, "reading %u of point %u is acknowledged out of turn", value, point);
    else {
        book_lay_in(book, session, point);
        life->acknowledged++;
    }
}

/* Takes in all that is in the pipe by now. */
static void drain(struct life *life, const struct session *session, struct book *book)
{
    struct message messages[64];
    ssize_t got;
    while ((got = read(life->pipe, messages, sizeof messages)) > 0) {
        if ((size_t)got % sizeof messages[0] != 0)
            complain(life, "a message is not whole");
        for (size_t i = 0; i < (size_t)got / sizeof messages[0]; i++)
            take_message(life, session, book, &messages[i]);
    }
    life->ended = got == 0;
}

void life_watch(struct life *life, const struct session *session, struct book *book, uint64_t time)
{
    uint64_t moment = life->start + time;
    for (uint64_t at = now(); !life->ended && at + SPIN < moment; at = now()) {
        uint64_t rest = moment - SPIN - at;
        struct timespec nap = {.tv_nsec = (long)(rest < NAP ? rest : NAP)};
        nanosleep(&nap, NULL);
        drain(life, session, book);
    }
    while (!life->ended && now() < moment)
        ;
}

void life_end(struct life *life, const struct session *session, struct book *book)
{
    int status;
    kill(life->process, SIGKILL);
    must(waitpid(life->process, &status, 0) == life->process, "the writer's end");
    life->end = now();
    drain(life, session, book);
    close(life->pipe);
    life->killed = WIFSIGNALED(status) && WTERMSIG(status) == SIGKILL;
    if (!life->killed && !(WIFEXITED(status) && WEXITSTATUS(status) == 0))
        complain(life, "the writer ends with status %d", status);
    else if (!life->killed && !life->full)
        complain(life, "the writer ends without a word");
}
