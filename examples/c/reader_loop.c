/* A reader's search at one shelf: rounds over a field of tags, each noted in a log, until the checker calls the list
 * complete.
 *
 *     reader_loop [TAGS [MARGIN]]
 *
 * docs/READERS.md says what each step is for. In short: the field is switched off and on before a log begins. Each tag
 * that is heard is silenced, and each slot that can't be read is asked again, by four more bits. At the end all are asked
 * in one slot, until none answers and MARGIN is reached. Then comes a field cycle, and one request that a tag that was
 * found has to answer: a reader that has gone deaf ends in a contradiction. After one there is another log, whose list
 * keeps what was ever heard.
 * `transceive` and `cycle` are the places for a chip: here they simulate a field. */
#include "vicinity.h"

#include <stdio.h>
#include <stdlib.h>
#include <string.h>

enum {
    MOST_TAGS = 20000,
    TEXT_ROOM = 1 << 24,
    SLOTS = 16,
    LINK = 2,
    MOST_BITS = 60, /* the longest mask that can be asked in sixteen slots */
    UID_BITS = 56,  /* in which UIDs differ */
    MOST_LOGS = 20,
    MOST_ROUNDS = 100, /* in a log: so many, and more for each tag found in it */
    MOST_ROUNDS_EACH = 10
};

/* What a slot held: the letter of its line, and the frame of a reply. */
struct slot {
    char letter;
    struct vicinity_frame reply;
};

/* Sends a request, and returns how many slots were reached and what they held. A Stay Quiet has none. */
static uint32_t transceive(const struct vicinity_frame *frame, struct slot held[SLOTS]);

/* Switches the field off, until no tag has power (docs/READERS.md says for how long), and on: all tags are Ready. */
static void cycle(void);

/* UIDs, in the order in which they were added. */
struct uids {
    size_t count;
    uint64_t uid[MOST_TAGS];
};

/* What was heard since the reader came to the shelf, with E0 and without: never forgotten, not even in a new log. */
static struct uids heard, foreign;

/* UIDs: found in this log; silenced since its last field cycle; never read. */
static struct uids found, quiet, unread;

/* The log; the masks that are left to ask, at most sixteen of each of sixteen lengths; whether a tag that was found
 * answered after the last silence. */
static char text[TEXT_ROOM];
static struct vicinity_mask to_ask[SLOTS * SLOTS];
static size_t len, masks, rounds, logs, calls;
static int is_sure;

static int has(const struct uids *set, uint64_t uid)
{
    size_t i = 0;
    while (i < set->count && set->uid[i] != uid)
        i++;
    return i < set->count;
}

static void add(struct uids *set, uint64_t uid)
{
    if (has(set, uid))
        return;
    if (set->count == MOST_TAGS)
        abort();
    set->uid[set->count++] = uid;
}

static int lies_in(uint64_t uid, const struct vicinity_mask *mask)
{
    return mask->len == 0 || uid << (64 - mask->len) == mask->value << (64 - mask->len);
}

static int is_vicinity(uint64_t uid)
{
    return uid >> UID_BITS == 0xE0;
}

static int is_reply(char letter)
{
    return letter == 'H' || letter == 'R';
}

/* Whether tags answered in a slot, and none of them was read. */
static int is_unread(char letter)
{
    return letter == 'C' || letter == 'D';
}

/* The mask in which no other UID lies. */
static struct vicinity_mask mask_of(uint64_t uid)
{
    const struct vicinity_mask mask = {0, UID_BITS, uid << (64 - UID_BITS) >> (64 - UID_BITS)};
    return mask;
}

/* The UID of a slot's reply, even one that doesn't begin with E0; 0 if there is none that can be read. */
static uint64_t uid_of(const struct slot *held)
{
    struct vicinity_reply reply;
    uint64_t uid = 0;
    if (!is_reply(held->letter))
        return 0;
    if (vicinity_read_response(held->reply.bytes, held->reply.len, &reply) != VICINITY_FAULT_FRAME_NOT_VICINITY)
        return reply.uid;
    for (int i = 9; i >= 2; i--)
        uid = uid << 8 | held->reply.bytes[i];
    return uid;
}

/* Adds one line to the log. */
static void note(char letter, const struct vicinity_frame *frame)
{
    struct vicinity_line line;
    if (vicinity_write_line((uint8_t)letter, frame->bytes, frame->len, 0, &line) || len + line.len > TEXT_ROOM)
        abort();
    memcpy(text + len, line.text, line.len);
    len += line.len;
}

/* Silences a tag. It may miss a request, so there are two. */
static void silence(uint64_t uid)
{
    struct vicinity_frame request;
    if (vicinity_write_stay_quiet(LINK, uid, &request))
        abort();
    for (int i = 0; i < 2; i++) {
        transceive(&request, NULL);
        note('T', &request);
    }
    add(&quiet, uid);
}

/* A field cycle: all tags are Ready. Those whose UIDs begin with another byte than E0 are silenced at once, since the
 * checker knows nothing of them. */
static void cycle_noted(void)
{
    const struct vicinity_frame none = {0};
    cycle();
    note('F', &none);
    quiet.count = 0;
    for (size_t i = 0; i < foreign.count; i++)
        silence(foreign.uid[i]);
}

/* Begins a log. */
static void begin(void)
{
    len = sizeof VICINITY_HEADER_LINE - 1;
    memcpy(text, VICINITY_HEADER_LINE, len);
    logs++;
    rounds = 0;
    found.count = quiet.count = unread.count = 0;
    is_sure = 0;
    cycle_noted();
}

/* Notes the slots of a round. A reply becomes N if it can't be read, or isn't a tag's, or is that of a tag that the log
 * has silenced, which missed that; and so does each slot if a tag has lost count of the slots, as others may have. */
static void note_slots(uint32_t reached, struct slot held[SLOTS], const uint64_t uids[SLOTS], int is_astray)
{
    for (uint32_t k = 0; k < reached; k++) {
        if (is_astray || (is_reply(held[k].letter) && (!is_vicinity(uids[k]) || has(&quiet, uids[k]))))
            held[k].letter = 'N';
        note(held[k].letter, &held[k].reply);
    }
}

/* One round over a mask. Silences each tag that was heard, and adds the masks of slots that weren't read to those that
 * are left to ask. Returns the letter of its last slot: N if it wasn't reached. */
static char ask(uint32_t slots, const struct vicinity_mask *mask)
{
    struct vicinity_frame frame;
    struct vicinity_mask of_slot[SLOTS];
    struct slot held[SLOTS] = {0};
    uint64_t uids[SLOTS];
    int is_astray = 0;
    if (vicinity_write_inventory(LINK, slots, mask->len, mask->value, &frame))
        abort();
    const uint32_t reached = transceive(&frame, held);
    if (reached > slots)
        abort();
    rounds++;
    note('T', &frame);
    for (uint32_t k = 0; k < reached; k++) {
        vicinity_slot_mask(slots, mask->len, mask->value, k, &of_slot[k]);
        uids[k] = uid_of(&held[k]);
        is_astray |= uids[k] != 0 && !lies_in(uids[k], &of_slot[k]);
        if (is_vicinity(uids[k]))
            add(&heard, uids[k]);
    }
    note_slots(reached, held, uids, is_astray);
    for (uint32_t k = 0; k < reached; k++) {
        if (is_reply(held[k].letter))
            add(&found, uids[k]);
        else if (uids[k] != 0 && !is_vicinity(uids[k]))
            add(&foreign, uids[k]);
        if (is_reply(held[k].letter) || has(&quiet, uids[k]) || has(&foreign, uids[k]))
            silence(uids[k]);
        if (slots == SLOTS && is_unread(held[k].letter))
            to_ask[masks++] = of_slot[k];
    }
    return reached == slots ? held[slots - 1].letter : 'N';
}

/* Whether the log may have more rounds. */
static int has_rounds(void)
{
    return rounds < MOST_ROUNDS + MOST_ROUNDS_EACH * found.count;
}

/* Asks the tags of a mask in sixteen slots, and those of each slot that wasn't read. */
static void ask_on(const struct vicinity_mask *mask)
{
    for (to_ask[0] = *mask, masks = 1; masks > 0 && has_rounds();) {
        const struct vicinity_mask next = to_ask[--masks];
        if (next.len > MOST_BITS)
            add(&unread, next.value);
        else
            ask(SLOTS, &next);
    }
}

/* Asks the tags of a mask until none of them answers: in sixteen slots first after C or D, else in one. */
static void find(const struct vicinity_mask *mask, char letter)
{
    for (is_sure = 0; letter != 'S' && has_rounds(); letter = ask(1, mask))
        if (is_unread(letter))
            ask_on(mask);
}

/* Finds a tag that was silenced before it was heard, after a field cycle. */
static void find_anew(const struct vicinity_mask *mask)
{
    cycle_noted();
    for (size_t i = 0; i < found.count; i++)
        silence(found.uid[i]);
    find(mask, 'C');
}

/* Asks for a tag that was found, after a field cycle. Its silence contradicts the log: then the reader is deaf, or the
 * field wasn't off for long enough. */
static void make_sure(void)
{
    const struct vicinity_mask mask = mask_of(found.uid[0]);
    char letter = 'N';
    cycle_noted();
    while ((letter == 'D' || letter == 'N') && has_rounds())
        letter = ask(1, &mask);
    is_sure = is_reply(letter);
}

/* The checker's answer. Returns how often a tag that isn't listed would have been missed. */
static size_t check(struct vicinity_answer *answer)
{
    struct vicinity_weakest weakest;
    calls++;
    vicinity_margin_listed((const uint8_t *)text, len, heard.uid, heard.count, answer, &weakest);
    return weakest.margin;
}

/* Searches in one log. Returns the margin. */
static size_t search(size_t margin, struct vicinity_answer *answer)
{
    const struct vicinity_mask all = {0};
    size_t reached;
    find(&all, 'C');
    while (reached = check(answer), has_rounds()) {
        if (answer->kind == VICINITY_UNSETTLED || answer->kind == VICINITY_DOUBTFUL) {
            const struct vicinity_mask named = {0, answer->mask_len, answer->mask_value};
            const struct vicinity_mask own = mask_of(answer->uid);
            find_anew(answer->uid ? &own : &named);
        } else if (vicinity_is_complete(answer) && reached < margin) {
            for (; reached < margin && has_rounds(); reached++)
                find(&all, 'N');
        } else if (vicinity_is_complete(answer) && found.count > 0 && !is_sure) {
            make_sure();
        } else {
            break;
        }
    }
    return reached;
}

/* Searches until the list is complete with this margin. Where a log contradicts itself, or a tag that was heard in an
 * earlier one didn't answer, all is asked again in a new log. Returns the margin. */
static size_t run(size_t margin, struct vicinity_answer *answer)
{
    size_t reached = search(margin, answer);
    while ((answer->kind == VICINITY_IMPOSSIBLE || answer->kind == VICINITY_ABSENT) && has_rounds() && logs < MOST_LOGS) {
        begin();
        reached = search(margin, answer);
    }
    return reached;
}

/* A simulated field, in place of a chip: its tags, and which of them are Quiet. */
static struct { uint64_t uid; int quiet; } field[MOST_TAGS];
static size_t tags;

static struct slot listen(const struct vicinity_mask *mask)
{
    struct slot held = {'S', {0}};
    for (size_t i = 0; i < tags; i++) {
        if (!field[i].quiet && lies_in(field[i].uid, mask)) {
            held.letter = held.letter == 'S' ? 'H' : 'C';
            vicinity_write_response(0, 0, field[i].uid, &held.reply);
        }
    }
    return held;
}

static uint32_t transceive(const struct vicinity_frame *frame, struct slot held[SLOTS])
{
    struct vicinity_request request;
    struct vicinity_mask mask;
    if (vicinity_read_request(frame->bytes, frame->len, &request))
        abort();
    for (size_t i = 0; i < tags && request.slots == 0; i++)
        field[i].quiet |= field[i].uid == request.uid;
    for (uint32_t k = 0; k < request.slots; k++) {
        vicinity_slot_mask(request.slots, request.mask_len, request.mask_value, k, &mask);
        held[k] = listen(&mask);
    }
    return request.slots;
}

static void cycle(void)
{
    for (size_t i = 0; i < tags; i++)
        field[i].quiet = 0;
}

/* Says on standard error why a search isn't done, or isn't sure. */
static void explain(size_t reached, int is_done)
{
    if (heard.count == 0)
        fprintf(stderr, "no tag was heard: a deaf reader writes the same log, unless a reference tag is fixed to its"
                        " antenna\n");
    if (!is_done && !has_rounds())
        fprintf(stderr, "stopped at the limit of %zu rounds, with margin %zu\n", rounds, reached);
    for (size_t i = 0; i < unread.count; i++)
        fprintf(stderr, "%016llX can't be read: have two tags this UID?\n", (unsigned long long)unread.uid[i]);
}

/* The number that a word says; more than MOST_TAGS if it isn't one. */
static size_t count_in(const char *word)
{
    return *word && word[strspn(word, "0123456789")] == '\0' ? strtoul(word, NULL, 10) : MOST_TAGS + 1;
}

int main(int argc, char **argv)
{
    struct vicinity_answer answer;
    const size_t margin = argc > 2 ? count_in(argv[2]) : 1;
    tags = argc > 1 ? count_in(argv[1]) : 40;
    if (vicinity_interface() != VICINITY_INTERFACE || argc > 3 || tags > MOST_TAGS || margin > MOST_TAGS) {
        fprintf(stderr, "reader_loop [TAGS [MARGIN]], at most %d, over an interface %d\n", MOST_TAGS, VICINITY_INTERFACE);
        return VICINITY_STATUS_NO_ANSWER;
    }
    for (size_t i = 0; i < tags; i++)
        field[i].uid = UINT64_C(0xE0) << 56 | (i + 1) * UINT64_C(0x9E3779B97F4A7C15) >> 8;
    begin();
    if (tags > 0) /* a tag is silenced before it was heard */
        silence(field[0].uid);
    const size_t reached = run(margin, &answer);
    /* where no tag was heard, only a reference tag could show that the reader hears */
    const int is_done = vicinity_is_complete(&answer) && reached >= margin && (is_sure || heard.count == 0);
    if (answer.kind == VICINITY_NO_ANSWER) {
        fprintf(stderr, "vicinity: out of memory\n");
        return VICINITY_STATUS_NO_ANSWER;
    }
    printf("%.*s after %zu rounds in log %zu, %zu calls of the checker\n", (int)strcspn(answer.text, "\n"),
           answer.text, rounds, logs, calls);
    explain(reached, is_done);
    if (fflush(stdout) || ferror(stdout))
        return VICINITY_STATUS_NO_ANSWER;
    return is_done && heard.count == tags ? VICINITY_STATUS_COMPLETE : VICINITY_STATUS_NOT_COMPLETE;
}
