/*
 * vicinity: is the list of tags that a reader claims complete?
 *
 * Compare vicinity_interface() with VICINITY_INTERFACE to see whether the linked library fits this
 * header.
 *
 * What the caller has to ensure, since nothing checks it:
 * - `text` points to `text_len` readable bytes, `bytes` to `len`, at most PTRDIFF_MAX, and so for
 *   `names` and `texts`. No NUL is needed at the end, and one inside is an ordinary byte.
 * - `uids` and `lengths` point to `count` readable numbers.
 * - A buffer is passed before its `room`, the number of its writable elements: numbers, structs or
 *   bytes. `needed` points to one number, and any other pointer to a struct to one struct.
 * - All pointers are aligned, and none is NULL. Only one that is passed before a length, count or
 *   room of 0 may have any value, NULL included.
 * - What is written overlaps nothing else that is passed.
 * - While the call runs, no other thread writes what it reads, or reads or writes what it writes.
 * - malloc, realloc and free belong to one allocator, which aligns to 16 bytes.
 * - The call isn't made from a signal handler, nor in the forked child of a process with threads.
 * - An x86-64 processor has x86-64-v2 (SSE4.2, POPCNT).
 * - The stack has 64 KiB left.
 * Calls share nothing: any number of threads may call at the same time. Only the calls that judge a
 * text, fill in slots or run a command take memory. They can't be stopped. To check a session of
 * 1,000,000 lines takes about 0.15 seconds and 46 MB, and up to one second and 150 MB for the worst
 * logs that are known (vicinity_run up to 2 seconds, 170 MB): bound the length of untrusted input.
 */
#ifndef VICINITY_H
#define VICINITY_H

#include <stddef.h>
#include <stdint.h>

#ifdef __cplusplus
#pragma push_macro("slots") /* which Qt has */
#undef slots
extern "C" {
#endif

#define VICINITY_INTERFACE 2u

/* The version of this header, as text and as a number like that of vicinity_version(). */
#define VICINITY_VERSION "2.0.8"
#define VICINITY_VERSION_NUMBER 20008u

/*
 * What a call that judges returns: the exit status of `vicinity check`. It is neither true nor
 * false, nor a kind of answer: gcc -Wall warns if the two are compared, and so do compilers of C++.
 * vicinity_simulate judges no list: of it 0 is VICINITY_STATUS_DONE, and so it is of vicinity_run
 * for a command that judges none.
 */
enum vicinity_status {
    VICINITY_STATUS_COMPLETE = 0, /* the list is complete */
    VICINITY_STATUS_DONE = 0, /* the result is written */
    VICINITY_STATUS_NOT_COMPLETE = 1, /* the log is possible, and its list isn't complete */
    VICINITY_STATUS_IMPOSSIBLE = 2, /* no tags could have produced the log */
    VICINITY_STATUS_REFUSED = 3, /* the text is not a log; of vicinity_run also another refusal */
    VICINITY_STATUS_NO_ANSWER = 4 /* memory was refused; of vicinity_run also a wrong use */
};

/* The kinds of answers, for the field `kind`. */
enum vicinity_kind {
    VICINITY_NO_ANSWER = 0, /* memory was refused; status 4 */
    VICINITY_COMPLETE = 1, /* the list is complete, with `count` UIDs; status 0 */
    VICINITY_ABSENT = 2, /* the listed `uid` can't be there; status 1 */
    VICINITY_UNLISTED = 3, /* `uid` must be there and isn't listed; status 1 */
    VICINITY_UNSETTLED = 4, /* all UIDs of the mask may be there, none is listed; status 1 */
    VICINITY_DOUBTFUL = 5, /* the listed `uid` may be missing; status 1 */
    VICINITY_IMPOSSIBLE = 6, /* the lines up to `line` contradict each other; status 2 */
    VICINITY_REFUSED = 7 /* the text is not a log: `line` has `fault`; status 3 */
};

/* The first fault of a text that is not a log, in the order in which a line's faults are tested. */
enum vicinity_fault {
    VICINITY_FAULT_NONE = 0,
    VICINITY_FAULT_TOO_MANY_LINES = 1,
    VICINITY_FAULT_LINE_TOO_LONG = 2,
    VICINITY_FAULT_HEADER = 3,
    VICINITY_FAULT_UNKNOWN_ENTRY = 4,
    VICINITY_FAULT_HEX = 5,
    VICINITY_FAULT_LISTED_LENGTH = 6,
    VICINITY_FAULT_NOT_VICINITY = 7,
    VICINITY_FAULT_SLOT_OUTSIDE_ROUND = 8,
    VICINITY_FAULT_ENTRY_AFTER_LIST = 9,
    VICINITY_FAULT_DUPLICATE_LISTED = 10,
    /* of the frame on a T, R or H line */
    VICINITY_FAULT_FRAME_SHORT = 101,
    VICINITY_FAULT_FRAME_CRC = 102,
    VICINITY_FAULT_FRAME_EXTENSION = 103,
    VICINITY_FAULT_FRAME_RESERVED = 104,
    VICINITY_FAULT_FRAME_OPTION_FLAG = 105,
    VICINITY_FAULT_FRAME_OTHER_COMMAND = 106,
    VICINITY_FAULT_FRAME_INVENTORY_FLAG = 107,
    VICINITY_FAULT_FRAME_AFI = 108,
    VICINITY_FAULT_FRAME_LENGTH = 109,
    VICINITY_FAULT_FRAME_MASK_TOO_LONG = 110,
    VICINITY_FAULT_FRAME_MASK_PADDING = 111,
    VICINITY_FAULT_FRAME_SELECT_FLAG = 112,
    VICINITY_FAULT_FRAME_NOT_ADDRESSED = 113,
    VICINITY_FAULT_FRAME_ERROR_FLAG = 114,
    VICINITY_FAULT_FRAME_NOT_VICINITY = 115
};

/* Why a frame, mask or line can't be made: the first that applies. */
enum vicinity_refusal {
    VICINITY_WRONG_LINK = 201, /* above 3 */
    VICINITY_WRONG_SLOTS = 202, /* neither 1 nor 16 */
    VICINITY_WRONG_MASK = 203, /* above 64 bits, or 60 with 16 slots, or a value with more bits */
    VICINITY_WRONG_SLOT = 204, /* not below the number of slots */
    VICINITY_WRONG_REPLY = 205, /* flags or DSFID above 255, Error_flag 1, or a UID without E0 */
    VICINITY_TOO_LONG = 206, /* more bytes than fit */
    VICINITY_WRONG_LETTER = 207 /* no line begins with it */
};

/* The commands of the program, for vicinity_run, which says what texts each takes. */
enum vicinity_command {
    VICINITY_COMMAND_CHECK = 1, /* a log */
    VICINITY_COMMAND_EXPLAIN = 2, /* a log */
    VICINITY_COMMAND_REPORT = 3, /* a log */
    VICINITY_COMMAND_MARGIN = 4, /* a log */
    VICINITY_COMMAND_SIMULATE = 5, /* a log without slots */
    VICINITY_COMMAND_RECONCILE = 6, /* a list, then logs or surveys; or as COLLECTION */
    VICINITY_COMMAND_FRAME = 7, /* a word */
    VICINITY_COMMAND_SPELL = 8, /* words, at least one */
    VICINITY_COMMAND_SURVEY = 9, /* logs, at least one */
    VICINITY_COMMAND_COLLECTION = 10, /* a catalogue, a table of places or none, logs or surveys */
    VICINITY_COMMAND_JSON = 11, /* a log */
    VICINITY_COMMAND_JSON_COLLECTION = 12 /* as for a collection */
};

/*
 * Fields that a kind does not use are 0. A struct of zeros is VICINITY_NO_ANSWER, not complete: its
 * status 0 says nothing.
 */
struct vicinity_answer {
    uint32_t kind;       /* enum vicinity_kind */
    uint32_t status;     /* enum vicinity_status: what the call returns */
    uint32_t count;      /* how many UIDs are listed */
    uint32_t line;       /* from 1 */
    uint32_t fault;      /* enum vicinity_fault */
    uint32_t mask_len;   /* in bits, 0 to 56 */
    uint64_t mask_value; /* below two to the power of mask_len */
    uint64_t uid;        /* its top byte is E0 */
    char text[64]; /* the line that `vicinity check` prints, LF included, then zeros */
};

/* Whether the list is complete: 1 if so, else 0. */
static __inline int vicinity_is_complete(const struct vicinity_answer *answer)
{
    return answer->kind == VICINITY_COMPLETE;
}

/* The kinds of findings. The first four have the numbers that they have as answers. */
enum vicinity_finding_kind {
    VICINITY_FINDING_ABSENT = 2, /* the listed `uid` can't be there: `line` rules it out */
    VICINITY_FINDING_UNLISTED = 3, /* `uid` must be there and isn't listed: `line` shows it */
    VICINITY_FINDING_UNSETTLED = 4, /* all UIDs of the mask may be there, none is listed */
    VICINITY_FINDING_DOUBTFUL = 5, /* the listed `uid` may be missing */
    VICINITY_FINDING_OPEN_MASK = 8, /* all UIDs of the mask may be there or not */
    VICINITY_FINDING_MORE_OPEN_MASKS = 9, /* there are more than sixteen open masks */
    VICINITY_FINDING_CONFLICT_LINE = 10, /* one of the lines that contradict each other */
    VICINITY_FINDING_SILENCED_BY = 11 /* `line` had silenced the tag whose reply is the conflict */
};

/* A finding of a report. Fields that a kind does not use are 0. */
struct vicinity_finding {
    uint32_t kind;       /* enum vicinity_finding_kind */
    uint32_t line;       /* from 1 */
    uint32_t mask_len;   /* in bits, 0 to 56 */
    uint32_t zero;       /* 0 for every kind */
    uint64_t mask_value; /* below two to the power of mask_len */
    uint64_t uid;        /* its top byte is E0 */
};

/* A frame, then zeros. After a fault every other field is 0, here and in the structs below. */
struct vicinity_frame {
    uint32_t fault; /* 0, or enum vicinity_refusal */
    uint32_t len;
    uint8_t bytes[16];
};

/* The fields of a request: an Inventory has slots and a mask, a Stay Quiet has a UID. */
struct vicinity_request {
    uint32_t fault;      /* 0, or enum vicinity_fault */
    uint32_t link;       /* 0 to 3 */
    uint32_t slots;      /* 1 or 16; 0 for Stay Quiet */
    uint32_t mask_len;
    uint64_t mask_value;
    uint64_t uid;        /* of Stay Quiet */
};

/* The fields of a reply. */
struct vicinity_reply {
    uint32_t fault; /* 0, or enum vicinity_fault */
    uint16_t flags;
    uint16_t dsfid;
    uint64_t uid;
};

/* A mask: the UIDs whose `len` low bits are `value`. */
struct vicinity_mask {
    uint32_t fault; /* 0, or enum vicinity_refusal */
    uint32_t len;
    uint64_t value;
};

/*
 * The margin of a log: the least number of slots in which a tag that isn't listed was overlooked.
 * The mask is the first, by length and then by value, all of whose UIDs have this margin and aren't
 * listed. All is 0 if there is no margin, since the log is impossible or the text is refused.
 *
 * A complete list is judged twice more: as if each reply `R` may have hidden others (hidden), and
 * as if, besides, the reader may have gone deaf after the last slot in which a tag answered (deaf).
 * A mask is the first, by length and then by value, all of whose UIDs are then possible and aren't
 * listed; `has_hidden` and `has_deaf` are 1 if there is one. All six are 0 if there is none, or the
 * list isn't complete.
 */
struct vicinity_weakest {
    uint32_t margin;
    uint32_t mask_len;   /* in bits, 0 to 56 */
    uint64_t mask_value; /* below two to the power of mask_len */
    uint32_t has_hidden;
    uint32_t hidden_len;
    uint64_t hidden_value;
    uint32_t has_deaf;
    uint32_t deaf_len;
    uint64_t deaf_value;
};

/* A line of a log, LF included, then zeros. */
struct vicinity_line {
    uint32_t fault; /* 0, or enum vicinity_refusal */
    uint32_t len;
    char text[132];
};

/* A name, then zeros. `len` is 0 for a number that has no name. */
struct vicinity_name {
    uint32_t len;
    char text[28];
};

/* The first line of a log of the newest version. */
#define VICINITY_HEADER_LINE "vicinity-log 3\n"

#if defined(__STDC_VERSION__) && __STDC_VERSION__ >= 201112L
_Static_assert(sizeof(struct vicinity_answer) == 104, "the size of struct vicinity_answer");
_Static_assert(offsetof(struct vicinity_answer, mask_value) == 24, "where mask_value stands");
_Static_assert(offsetof(struct vicinity_answer, text) == 40, "where text stands");
_Static_assert(sizeof(struct vicinity_finding) == 32, "the size of struct vicinity_finding");
_Static_assert(offsetof(struct vicinity_finding, uid) == 24, "where the uid of a finding stands");
_Static_assert(sizeof(struct vicinity_frame) == 24, "the size of struct vicinity_frame");
_Static_assert(sizeof(struct vicinity_request) == 32, "the size of struct vicinity_request");
_Static_assert(sizeof(struct vicinity_reply) == 16, "the size of struct vicinity_reply");
_Static_assert(sizeof(struct vicinity_mask) == 16, "the size of struct vicinity_mask");
_Static_assert(sizeof(struct vicinity_weakest) == 48, "the size of struct vicinity_weakest");
_Static_assert(sizeof(struct vicinity_line) == 140, "the size of struct vicinity_line");
_Static_assert(sizeof(struct vicinity_name) == 32, "the size of struct vicinity_name");
#endif

/*
 * Returns VICINITY_INTERFACE of the header that the library fits. It changes if a struct, a number
 * or the meaning of a call changes, and not if a call is added.
 */
uint32_t vicinity_interface(void);

/* Returns the library's version: 10,000 times its first number, 100 times its second, its third. */
uint32_t vicinity_version(void);

/* Judges a log, writes the answer, and returns its status. */
enum vicinity_status vicinity_check(const uint8_t *text, size_t text_len,
                                    struct vicinity_answer *answer);

/*
 * Judges a log and explains the answer by a counterexample, as `vicinity explain` does. These are
 * the UIDs, in rising order, of tags that could have produced the log and differ from its list.
 * `*needed` is how many there are. If `room` is at least that, they are at the start of
 * `population`; otherwise nothing is written there: call again with a larger buffer. There may be
 * none, which is the empty population. There is no counterexample, and `*needed` is 0, for
 * VICINITY_COMPLETE, _IMPOSSIBLE, _REFUSED and _NO_ANSWER.
 */
enum vicinity_status vicinity_explain(const uint8_t *text, size_t text_len,
                                      struct vicinity_answer *answer, uint64_t *population,
                                      size_t room, size_t *needed);

/*
 * Judges a log and lists every finding, in the order of the lines of `vicinity report`. Of a
 * possible log: the absent UIDs, the unlisted ones, the unsettled mask followed by the open masks,
 * and the doubtful UIDs; UIDs in rising order. Of an impossible one: the lines of a conflict, in
 * rising order, and the line that silenced. `*needed` is how many findings there are. If `room` is
 * at least that, they are at the start of `findings`; otherwise nothing is written there: call
 * again with a larger buffer. There is none, and `*needed` is 0, for VICINITY_COMPLETE, _REFUSED
 * and _NO_ANSWER.
 */
enum vicinity_status vicinity_report(const uint8_t *text, size_t text_len,
                                     struct vicinity_answer *answer,
                                     struct vicinity_finding *findings, size_t room,
                                     size_t *needed);

/*
 * Judges a text without `U` lines and a list of UIDs in any order, as a reader's loop does. The
 * answer is that of vicinity_check to the text followed by a line `U` for each UID. If the last
 * line of the text lacks its LF, that is put there first (a CR before it belongs to the line's
 * end). So for VICINITY_COMPLETE the log lists exactly these UIDs, and those of `U` lines that the
 * text has all the same; `count` is how many they are. A UID that comes twice has the fault
 * VICINITY_FAULT_DUPLICATE_LISTED, and one that doesn't begin E0 VICINITY_FAULT_NOT_VICINITY, at
 * its line.
 */
enum vicinity_status vicinity_check_listed(const uint8_t *text, size_t text_len,
                                           const uint64_t *uids, size_t count,
                                           struct vicinity_answer *answer);

/*
 * Judges a log and writes its margin. A UID was overlooked in a slot in which, by the log, its tag
 * should have answered, and that is logged as silent, or as the reply `R` of another UID. The
 * margin of the log is in how many slots the UIDs of the weakest mask were overlooked, and no
 * unlisted UID was in fewer. So for VICINITY_COMPLETE it is at least 1: a tag that isn't listed
 * would have had to be missed in so many slots. It is written for every possible log, complete or
 * not; `*weakest` is all 0 for VICINITY_IMPOSSIBLE, _REFUSED and _NO_ANSWER.
 */
enum vicinity_status vicinity_margin(const uint8_t *text, size_t text_len,
                                     struct vicinity_answer *answer,
                                     struct vicinity_weakest *weakest);

/* As vicinity_margin, for a text and a list of UIDs as vicinity_check_listed takes them. */
enum vicinity_status vicinity_margin_listed(const uint8_t *text, size_t text_len,
                                            const uint64_t *uids, size_t count,
                                            struct vicinity_answer *answer,
                                            struct vicinity_weakest *weakest);

/*
 * Fills in the slots of a log, as the tags that it lists would answer. What `vicinity simulate`
 * prints is written: the text of the filled log, or the one line of a refusal. `*needed` is how
 * many bytes it has. If `room` is at least that, they are at the start of `filled`, with no NUL
 * after them; otherwise nothing is written there: call again with a larger buffer. Returns the
 * status: 0 for a log, 3 for a refusal; 4 if memory was refused, and then `*needed` is 0.
 */
enum vicinity_status vicinity_simulate(const uint8_t *text, size_t text_len, uint8_t *filled,
                                       size_t room, size_t *needed);

/*
 * Does what the program does for a command: writes what it writes to standard output about texts in
 * memory, and returns its status. For `vicinity reconcile list day night`:
 *
 *     static const char names[] = "list\nday\nnight\n";
 *     size_t lengths[] = {list_len, day_len, night_len};
 *     vicinity_run(VICINITY_COMMAND_RECONCILE, (const uint8_t *)names, sizeof names - 1,
 *                  texts, list_len + day_len + night_len, lengths, 3, written, room, &needed);
 *
 * The `count` texts stand one behind the other in `texts`, and `lengths` has the length of each.
 * `names` has a line for each, its name in UTF-8 and LF. `reconcile`, `survey`, `collection` and
 * `json-collection` write names, and the place of a log in a collection is found by its name.
 * `*needed` is how many bytes are written. If `room` is at least that, they are at the start of
 * `written`, with no NUL after them; otherwise nothing is written there: call again with a larger
 * buffer.
 *
 * If the texts are not what the command takes, as two logs for `check`, a word that is not UTF-8,
 * or, where names are written, a name that no log can have (empty, above 4,096 bytes, or with a
 * control character), the result is VICINITY_STATUS_NO_ANSWER, and the line `vicinity: usage` is
 * written, which the program writes to standard error. If memory was refused, no command has the
 * number, `names` has not `count` lines in UTF-8, or the lengths do not add up to `texts_len`, the
 * result is the same, and `*needed` is 0.
 */
enum vicinity_status vicinity_run(enum vicinity_command command, const uint8_t *names,
                                  size_t names_len, const uint8_t *texts, size_t texts_len,
                                  const size_t *lengths, size_t count, uint8_t *written,
                                  size_t room, size_t *needed);

/* The calls below take no memory. */

/* Writes the word of a kind of answer, such as `unsettled`; returns its length, 0 if none. */
uint32_t vicinity_kind_name(uint32_t kind, struct vicinity_name *name);

/* Writes the name of an enum vicinity_fault or vicinity_refusal; returns its length, 0 if none. */
uint32_t vicinity_fault_name(uint32_t fault, struct vicinity_name *name);

/* Each of the calls below fills its struct and returns the struct's fault. */

/* Writes the frame of an Inventory request, CRC included. */
uint32_t vicinity_write_inventory(uint32_t link, uint32_t slots, uint32_t mask_len,
                                  uint64_t mask_value, struct vicinity_frame *frame);

/* Writes the frame of a Stay Quiet request, CRC included. */
uint32_t vicinity_write_stay_quiet(uint32_t link, uint64_t uid, struct vicinity_frame *frame);

/* Writes the frame of a reply, CRC included. */
uint32_t vicinity_write_response(uint32_t flags, uint32_t dsfid, uint64_t uid,
                                 struct vicinity_frame *frame);

/* Writes at most 14 bytes followed by their CRC, for a chip that strips the CRC. */
uint32_t vicinity_add_crc(const uint8_t *bytes, size_t len, struct vicinity_frame *frame);

/* Reads a frame, CRC included, as a request: its fields, or its first fault. */
uint32_t vicinity_read_request(const uint8_t *bytes, size_t len, struct vicinity_request *request);

/* Reads a frame, CRC included, as a reply: its fields, or its first fault. */
uint32_t vicinity_read_response(const uint8_t *bytes, size_t len, struct vicinity_reply *reply);

/* Writes the mask of a slot of an Inventory request, counted from 0: which UIDs answer in it. */
uint32_t vicinity_slot_mask(uint32_t slots, uint32_t mask_len, uint64_t mask_value, uint32_t slot,
                            struct vicinity_mask *mask);

/*
 * Writes a line of a log. `letter` says which: 'T', 'R' or 'H' with a frame of at most 63 `bytes`,
 * which isn't judged; 'U' with `uid`; 'S', 'C', 'D', 'N' or 'F' alone. Arguments that a letter does
 * not use are ignored.
 */
uint32_t vicinity_write_line(uint8_t letter, const uint8_t *bytes, size_t len, uint64_t uid,
                             struct vicinity_line *line);

#ifdef __cplusplus
}
#pragma pop_macro("slots")
#endif

#endif
