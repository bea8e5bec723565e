/*
 * replset.h: replica sets of MongoDB to step, to look at and to copy, inside of a process.
 *
 * A set is played as a script is by `replset run`, line by line: `replset_step` takes a line such as
 * "campaign n0" and gives the text of its reply. A set has neither disks nor threads, so `diskfail`, `par`,
 * `thread` and `end` are refused. Nothing is random, and no clock is read: the same lines get the same
 * replies.
 *
 * OWNERSHIP. A `replset` is a handle, which the caller keeps: it leads to a set, or nowhere. It begins as
 * REPLSET_NONE. `replset_open` and `replset_copy` let it lead to a new set, and give back the one that it led
 * to before; `replset_free` gives that back, and the handle leads nowhere again. Everything else belongs to
 * the caller all the time: the library keeps no pointer to a line, a buffer or a size that it was passed.
 *
 * HANDLES. A call with a handle that leads nowhere answers REPLSET_NO_SET, and giving back does nothing then:
 * twice is as once. A handle may be moved to another place, but of two with the same bytes only one may be
 * used from then on: nothing tests for that, as nothing does for a pointer that was freed.
 *
 * POINTERS. No pointer may be null, but a line or a buffer of length 0 at the calls by name. What a pointer
 * leads to may not overlap what another one of the same call leads to. Any bytes may stand in a line: it need
 * be neither UTF-8 nor end in a zero byte, which is a byte like any other.
 *
 * THREADS. A set stays on the thread that opened it, and so do its copies, as they share its history. Sets
 * that aren't copies of one another may be used by several threads at once. No call is for a signal handler.
 *
 * MEMORY comes from the program's malloc, realloc and free. Where it runs out a call answers REPLSET_MEMORY,
 * and the set is as it was before the line that could not be done.
 *
 * TEXTS. A call writes as much of its text as there is room for, with no zero byte at the end, and tells how
 * long the whole is. If that is more than the room, `replset_text` gives the rest: the set keeps the text
 * until the next call with it.
 */
#ifndef REPLSET_H
#define REPLSET_H

#include <stddef.h>
#include <stdint.h>

#ifdef __cplusplus
extern "C" {
#endif

/* A handle. Its field is the library's own. */
typedef struct replset {
    void *held;
} replset;

/* What a handle begins as. */
#define REPLSET_NONE {NULL}

/* What a call answers. */
enum {
    REPLSET_OK = 0,
    /* A line is no line of a script, or can't be done here. It has changed nothing. The text ends in a line
     * "line NUMBER: RULE", with a rule's name: those of faulty scripts, and four more. LineFeed: there is a
     * line feed in the line. NoDisks: it is `diskfail`. NoBlocks: it is `par`, `thread` or `end`. NoQuestion:
     * `replset_ask` was asked for more than to look at something. */
    REPLSET_BAD_LINE = 1,
    /* Memory ran out. */
    REPLSET_MEMORY = 2,
    /* `replset_open`: there is no set of these sizes, or no script has so many lines. */
    REPLSET_BAD_SIZES = 3,
    /* `replset_call`: there is no call of this number. */
    REPLSET_BAD_CALL = 4,
    /* The handle leads nowhere. */
    REPLSET_NO_SET = 5
};

/* The numbers of calls, for `replset_call`. */
enum {
    REPLSET_STEP = 1,
    REPLSET_STEPS = 2,
    REPLSET_ASK = 3,
    REPLSET_SCRIPT = 4,
    REPLSET_TRACE = 5,
    REPLSET_MESSAGES = 6,
    REPLSET_LINE = 7,
    REPLSET_TEXT = 8
};

/*
 * Opens a set of `nodes` nodes (1 to 50), of which the first `voters` vote (1 to 7) and the first `members`
 * are members (from `voters` to `nodes`). `line` is the number of the script's line that says so, 1 unless
 * others stand before it (up to 200,000). The next line has the next number. `set` stays as it was but at
 * REPLSET_OK.
 */
uint32_t replset_open(uint32_t nodes, uint32_t voters, uint32_t members, uint32_t line, replset *set);

/*
 * Lets `copy` lead to an independent set that has come just as far: neither sees what is done with the other.
 * It takes the time of the set's logs and messages, and shares the rest. `copy` stays as it was but at
 * REPLSET_OK.
 */
uint32_t replset_copy(replset *set, replset *copy);

/* Gives a set back. The handle leads nowhere from then on. */
void replset_free(replset *set);

/*
 * Every other call, by its number. The functions below say what each does with `number` and the `length`
 * bytes at `line`. It writes up to `room` bytes of its text to `out`, and always how long the text is to
 * `*size`. Neither `line` nor `out` may be null here, also where its length is 0.
 */
uint32_t replset_call(replset *set, uint32_t call, uint64_t number, const uint8_t *line, size_t length,
                      uint8_t *out, size_t room, size_t *size);

/* ---- the calls by their names */

/* As `replset_call`, where a line or a buffer of length 0 may be null. */
static inline uint32_t replset_call_or_empty(replset *set, uint32_t call, uint64_t number,
                                             const char *line, size_t length, char *out, size_t room,
                                             size_t *size)
{
    uint8_t none[1] = {0};
    return replset_call(set, call, number, length ? (const uint8_t *)line : none + 0, length,
                        room ? (uint8_t *)out : none + 1, room, size);
}

/*
 * Does one line, without the line feed at its end. The text is "NUMBER: REPLY" and a line feed, as
 * `replset run` prints it, and nothing for an empty line or a comment, which are only counted. A bad line
 * isn't counted.
 */
static inline uint32_t replset_step(replset *set, const char *line, size_t length, char *out, size_t room,
                                    size_t *size)
{
    return replset_call_or_empty(set, REPLSET_STEP, 0, line, length, out, room, size);
}

/*
 * Does many lines, each with a line feed at its end (the last may go without), as those of a script. It stops
 * at the first that can't be done; the lines before it are done, and their replies stand in the text.
 */
static inline uint32_t replset_steps(replset *set, const char *lines, size_t length, char *out, size_t room,
                                     size_t *size)
{
    return replset_call_or_empty(set, REPLSET_STEPS, 0, lines, length, out, room, size);
}

/*
 * What `replset_step` would give for a line that only looks at something: `state`, `dump`, `read`, `log` or
 * `rolled`. It changes nothing, and is no line of the script.
 */
static inline uint32_t replset_ask(replset *set, const char *line, size_t length, char *out, size_t room,
                                   size_t *size)
{
    return replset_call_or_empty(set, REPLSET_ASK, 0, line, length, out, room, size);
}

/* The script so far: empty lines before the `set` line, that line, and those done, each with a line feed. */
static inline uint32_t replset_script(replset *set, char *out, size_t room, size_t *size)
{
    return replset_call_or_empty(set, REPLSET_SCRIPT, 0, NULL, 0, out, room, size);
}

/* The trace of the run so far, as `replset trace` prints it. It takes the time of doing all lines again. */
static inline uint32_t replset_trace(replset *set, char *out, size_t room, size_t *size)
{
    return replset_call_or_empty(set, REPLSET_TRACE, 0, NULL, 0, out, room, size);
}

/*
 * The messages that were sent, from that of number `first` on, all of which can be delivered, also again.
 * Each is a line "mNUMBER nFROM nTO TERM KIND"; KIND is Fetch, FetchReply, Report, VoteAsk, VoteReply,
 * Heartbeat, HeartbeatReply, CommonAsk or CommonReply.
 */
static inline uint32_t replset_messages(replset *set, uint64_t first, char *out, size_t room, size_t *size)
{
    return replset_call_or_empty(set, REPLSET_MESSAGES, first, NULL, 0, out, room, size);
}

/* The number of the next line, in decimal digits and with a line feed. */
static inline uint32_t replset_line(replset *set, char *out, size_t room, size_t *size)
{
    return replset_call_or_empty(set, REPLSET_LINE, 0, NULL, 0, out, room, size);
}

/* The text of the last call, from its byte `from` on. It is kept: `replset_text` may be called again. */
static inline uint32_t replset_text(replset *set, uint64_t from, char *out, size_t room, size_t *size)
{
    return replset_call_or_empty(set, REPLSET_TEXT, from, NULL, 0, out, room, size);
}

#ifdef __cplusplus
}
#endif

#endif
