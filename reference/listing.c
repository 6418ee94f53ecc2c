/*
 * Reads a scenario from standard input, checks it, carries out its script and
 * writes the listing to standard output. A faulty file gets its one line "!".
 *
 * The file and the listing are described in docs/SCENARIO.md, the kernel in
 * docs/KERNEL.md, the three objects and the policies in docs/OBJECTS.md.
 *
 * Status 0: standard output holds the whole answer. Status 1: it does not, and
 * standard error says why.
 */
#include <errno.h>
#include <signal.h>
#include <stdbool.h>
#include <stdint.h>
#include <stdio.h>
#include <stdlib.h>
#include <string.h>

enum {
    MAX_FILE = 32768,
    MAX_LINE = 80,
    MAX_NUMBERS = (MAX_LINE - 1) / 2,
    MAX_COMMANDS = MAX_FILE / 4, /* "b 1" with its line feed is the shortest command */

    OBJECTS = 3,
    SIGNALS = 64,
    MAX_POOLS = 3,
    MAX_FRAMES = 64,
    MAX_WORDS = 8,
    MAX_QUEUE = 16,
    MAX_DEFERRAL = 8,

    MAX_SENDS = 32,
    MAX_TARGET = 8, /* the highest object that a post send may name */
    MAX_STATES = 32,
    MAX_CHAIN = 4,
    MAX_ROWS = 64,
    FLAT_STATES = 16,
    PLACES = 8,
    MAX_MARKS = 255,
    MAX_TRANSITIONS = 8,
    MAX_REACTION = 1 + 2 * MAX_CHAIN
};

enum refusal {
    FINE = 0,
    BAD_WORDS = 1,
    BAD_SIGNAL = 2,
    BAD_OBJECT = 3,
    BAD_POOL = 4,
    BAD_LENGTH = 5,
    BAD_FILE = 6,
    BAD_FORM = 7,
    BAD_VALUE = 8,
    TABLE_FULL = 9,
    NO_FRAME = 21,
    NO_PLACE = 22,
    NONE_DEFERRED = 24
};

enum layer { IN_FILE = 1, IN_FORM = 2, IN_TABLES = 3, IN_SETUP = 4, IN_SCRIPT = 5 };

/* Things are numbered from 1, so place 0 of most arrays is unused. */

struct event {
    uint8_t signal;
    uint8_t count;
    uint16_t words[MAX_WORDS];
};

struct frame {
    struct event event;
    uint8_t pool;
    uint8_t uses;
};

struct pool {
    uint8_t size;
    uint8_t count;
    uint8_t free; /* how many frames are in the free list */
    uint8_t list[MAX_FRAMES]; /* the free list; its head is the last entry */
};

struct queue {
    uint8_t length;
    uint8_t count;
    uint8_t first;
    uint8_t ring[MAX_QUEUE];
};

struct command {
    char letter;
    uint8_t object;
    uint16_t turns; /* of "g" */
    struct event event;
};

enum send_kind { POST = 1, PUBLISH = 2, RECALL = 3 };

struct send {
    uint8_t kind;
    uint8_t object;
    uint8_t signal;
    uint16_t word;
};

struct state {
    uint8_t parent;
    uint8_t entry;
    uint8_t exit;
    uint8_t initial;
    uint8_t depth; /* the length of the chain */
};

enum { ALWAYS = 0, EQUAL = 1, BELOW = 2 };
enum { MOVES = 0, STAYS = 1, DEFERS = 2 };

struct row {
    uint8_t guard;
    uint8_t kind;
    uint8_t target;
    uint8_t send;
    uint16_t value;
    uint8_t next; /* the next row with the same state and signal */
};

struct flat_row {
    uint8_t kind;
    uint8_t next;
    uint8_t send;
};

struct transition {
    uint8_t signal;
    uint8_t send;
    uint8_t take[PLACES + 1];
    uint8_t give[PLACES + 1];
};

enum verdict { HANDLED = 'H', DEFERRED = 'D', SHED = 'S', IGNORED = 'I' };

struct reaction {
    enum verdict verdict;
    int count;
    const struct send *sends[MAX_REACTION];
};

/* The set-up. */
static struct pool pools[MAX_POOLS + 1];
static int pool_count;
static struct queue waiting[OBJECTS + 1];
static struct queue deferred[OBJECTS + 1];
static uint8_t subscribers[SIGNALS + 1]; /* sets of objects */
static bool rotating;

/* The tables. */
static struct send sends[MAX_SENDS + 1];
static int send_count;
static struct state states[MAX_STATES + 1]; /* state 0 is the top, of depth 0 */
static int state_count;
static struct row rows[MAX_ROWS + 1];
static int row_count;
static uint8_t first_row[MAX_STATES + 1][SIGNALS + 1];
static struct flat_row flat_rows[MAX_ROWS + 1];
static int flat_row_count;
static uint8_t first_flat_row[FLAT_STATES + 1][SIGNALS + 1];
static struct transition transitions[MAX_TRANSITIONS + 1];
static int transition_count;

/* The script. */
static struct command commands[MAX_COMMANDS];
static int command_count;

/* What changes while the script runs, besides the queues and the free lists. */
static struct frame frames[MAX_FRAMES + 1];
static int turn = 1; /* of the rotating policy */
static uint8_t marks[PLACES + 1];
static int flat_state = 1;
static int chart_state;

/* ---- output ---- */

static char output[1 << 16];
static size_t output_length;

static void fail(const char *what)
{
    fprintf(stderr, "listing: %s: %s\n", what, strerror(errno));
    exit(1);
}

static void write_out(void)
{
    if (fwrite(output, 1, output_length, stdout) != output_length)
        fail("cannot write");
    output_length = 0;
}

/* Starts a line. No line of a listing is longer than 64 bytes. */
static void put_letter(char letter)
{
    if (output_length > sizeof output - 64)
        write_out();
    output[output_length++] = letter;
}

static void put_number(unsigned number)
{
    char digits[10];
    int count = 0;

    do {
        digits[count++] = (char)('0' + number % 10);
        number /= 10;
    } while (number > 0);
    output[output_length++] = ' ';
    while (count > 0)
        output[output_length++] = digits[--count];
}

static void put_verdict(enum verdict verdict)
{
    output[output_length++] = ' ';
    output[output_length++] = (char)verdict;
}

static void end_line(void)
{
    output[output_length++] = '\n';
}

/* ---- a line: its letter and its numbers ---- */

struct line {
    unsigned char letter;
    int count;
    uint16_t n[MAX_NUMBERS];
};

static bool is_digit(char c)
{
    return c >= '0' && c <= '9';
}

static bool parse(const char *p, const char *end, struct line *line)
{
    if (p == end || end - p > MAX_LINE)
        return false;
    line->letter = (unsigned char)*p++;
    line->count = 0;
    while (p < end) {
        unsigned number = 0;
        const char *start;

        if (*p++ != ' ')
            return false;
        for (start = p; p < end && is_digit(*p); p++) {
            number = number * 10 + (unsigned)(*p - '0');
            if (number > UINT16_MAX)
                return false;
        }
        if (p == start || (*start == '0' && p - start > 1))
            return false;
        line->n[line->count++] = (uint16_t)number;
    }
    return true;
}

enum part { NO_PART, SETUP, TABLES, SCRIPT };

static const struct {
    uint8_t part;
    uint8_t least; /* how many numbers */
    uint8_t most;
} letters[256] = {
    ['P'] = {SETUP, 2, 2},  ['Q'] = {SETUP, 3, 3},  ['S'] = {SETUP, 2, 2},  ['W'] = {SETUP, 1, 1},
    ['D'] = {TABLES, 4, 4}, ['H'] = {TABLES, 3, 3}, ['I'] = {TABLES, 2, 2}, ['R'] = {TABLES, 7, 7},
    ['F'] = {TABLES, 5, 5}, ['N'] = {TABLES, 2, 2}, ['T'] = {TABLES, 2, 2}, ['A'] = {TABLES, 4, 4},
    ['p'] = {SCRIPT, 2, MAX_NUMBERS}, ['f'] = {SCRIPT, 2, MAX_NUMBERS},
    ['b'] = {SCRIPT, 1, MAX_NUMBERS}, ['r'] = {SCRIPT, 1, MAX_NUMBERS},
    ['g'] = {SCRIPT, 1, 1},
};

static bool within(unsigned number, unsigned least, unsigned most)
{
    return number >= least && number <= most;
}

/* ---- lines of the set-up ---- */

static enum refusal add_pool(unsigned size, unsigned count)
{
    unsigned frames_before = 0;

    for (int i = 1; i <= pool_count; i++)
        frames_before += pools[i].count;
    if (pool_count == MAX_POOLS || !within(size, pools[pool_count].size + 1u, MAX_WORDS) ||
        !within(count, 1, MAX_FRAMES - frames_before))
        return BAD_POOL;
    pool_count++;
    pools[pool_count].size = (uint8_t)size;
    pools[pool_count].count = (uint8_t)count;
    return FINE;
}

static enum refusal set_lengths(unsigned object, unsigned length, unsigned deferral)
{
    if (!within(object, 1, OBJECTS))
        return BAD_OBJECT;
    if (!within(length, 1, MAX_QUEUE) || deferral > MAX_DEFERRAL)
        return BAD_LENGTH;
    waiting[object].length = (uint8_t)length;
    deferred[object].length = (uint8_t)deferral;
    return FINE;
}

static enum refusal subscribe(unsigned object, unsigned signal)
{
    if (!within(object, 1, OBJECTS))
        return BAD_OBJECT;
    if (!within(signal, 1, SIGNALS))
        return BAD_SIGNAL;
    subscribers[signal] |= (uint8_t)(1u << (object - 1));
    return FINE;
}

static enum refusal setup_line(const struct line *line)
{
    const uint16_t *n = line->n;

    switch (line->letter) {
    case 'P':
        return add_pool(n[0], n[1]);
    case 'Q':
        return set_lengths(n[0], n[1], n[2]);
    case 'S':
        return subscribe(n[0], n[1]);
    default: /* W */
        if (n[0] > 1)
            return BAD_VALUE;
        rotating = n[0] == 1;
        return FINE;
    }
}

/* ---- lines of the tables ---- */

static bool is_send(unsigned send)
{
    return send <= (unsigned)send_count;
}

static bool is_state(unsigned state)
{
    return within(state, 1, (unsigned)state_count);
}

static enum refusal add_send(unsigned kind, unsigned object, unsigned signal, unsigned word)
{
    bool sound;

    if (send_count == MAX_SENDS)
        return TABLE_FULL;
    switch (kind) {
    case POST:
        sound = within(object, 1, MAX_TARGET) && within(signal, 1, SIGNALS);
        break;
    case PUBLISH:
        sound = object == 0 && within(signal, 1, SIGNALS);
        break;
    case RECALL:
        sound = object == 0 && signal == 0 && word == 0;
        break;
    default:
        sound = false;
    }
    if (!sound)
        return BAD_VALUE;
    sends[++send_count] = (struct send){(uint8_t)kind, (uint8_t)object, (uint8_t)signal, (uint16_t)word};
    return FINE;
}

static enum refusal add_state(unsigned parent, unsigned entry, unsigned exit)
{
    if (state_count == MAX_STATES)
        return TABLE_FULL;
    if (parent > (unsigned)state_count || states[parent].depth == MAX_CHAIN || !is_send(entry) ||
        !is_send(exit))
        return BAD_VALUE;
    states[++state_count] = (struct state){
        .parent = (uint8_t)parent,
        .entry = (uint8_t)entry,
        .exit = (uint8_t)exit,
        .depth = (uint8_t)(states[parent].depth + 1),
    };
    return FINE;
}

static enum refusal set_initial(unsigned state, unsigned target)
{
    unsigned above;

    if (!is_state(state) || !is_state(target))
        return BAD_VALUE;
    above = states[target].parent;
    while (above != 0 && above != state)
        above = states[above].parent;
    if (above == 0)
        return BAD_VALUE;
    states[state].initial = (uint8_t)target;
    return FINE;
}

static enum refusal add_row(const uint16_t *n)
{
    unsigned state = n[0], signal = n[1], guard = n[2], value = n[3], kind = n[4], target = n[5], send = n[6];
    uint8_t *link;

    if (row_count == MAX_ROWS)
        return TABLE_FULL;
    if (!is_state(state) || !within(signal, 1, SIGNALS) || guard > BELOW || (guard == ALWAYS && value != 0) ||
        kind > DEFERS || (kind == MOVES ? !is_state(target) : target != 0) ||
        (kind == DEFERS ? send != 0 : !is_send(send)))
        return BAD_VALUE;
    rows[++row_count] = (struct row){
        .guard = (uint8_t)guard,
        .kind = (uint8_t)kind,
        .target = (uint8_t)target,
        .send = (uint8_t)send,
        .value = (uint16_t)value,
    };
    link = &first_row[state][signal];
    while (*link != 0)
        link = &rows[*link].next;
    *link = (uint8_t)row_count;
    return FINE;
}

static enum refusal add_flat_row(unsigned state, unsigned signal, unsigned kind, unsigned next, unsigned send)
{
    if (flat_row_count == MAX_ROWS)
        return TABLE_FULL;
    if (!within(state, 1, FLAT_STATES) || !within(signal, 1, SIGNALS))
        return BAD_VALUE;
    if (!(kind == MOVES && within(next, 1, FLAT_STATES) && is_send(send)) &&
        !(kind == DEFERS && next == 0 && send == 0))
        return BAD_VALUE;
    flat_rows[++flat_row_count] = (struct flat_row){(uint8_t)kind, (uint8_t)next, (uint8_t)send};
    if (first_flat_row[state][signal] == 0)
        first_flat_row[state][signal] = (uint8_t)flat_row_count;
    return FINE;
}

static enum refusal set_marks(unsigned place, unsigned count)
{
    if (!within(place, 1, PLACES) || count > MAX_MARKS)
        return BAD_VALUE;
    marks[place] = (uint8_t)count;
    return FINE;
}

static enum refusal add_transition(unsigned signal, unsigned send)
{
    if (transition_count == MAX_TRANSITIONS)
        return TABLE_FULL;
    if (!within(signal, 1, SIGNALS) || !is_send(send))
        return BAD_VALUE;
    transition_count++;
    transitions[transition_count].signal = (uint8_t)signal;
    transitions[transition_count].send = (uint8_t)send;
    return FINE;
}

static enum refusal set_arc(unsigned transition, unsigned place, unsigned take, unsigned give)
{
    if (!within(transition, 1, (unsigned)transition_count) || !within(place, 1, PLACES) || take > MAX_MARKS ||
        give > MAX_MARKS)
        return BAD_VALUE;
    transitions[transition].take[place] = (uint8_t)take;
    transitions[transition].give[place] = (uint8_t)give;
    return FINE;
}

static enum refusal table_line(const struct line *line)
{
    const uint16_t *n = line->n;

    switch (line->letter) {
    case 'D':
        return add_send(n[0], n[1], n[2], n[3]);
    case 'H':
        return add_state(n[0], n[1], n[2]);
    case 'I':
        return set_initial(n[0], n[1]);
    case 'R':
        return add_row(n);
    case 'F':
        return add_flat_row(n[0], n[1], n[2], n[3], n[4]);
    case 'N':
        return set_marks(n[0], n[1]);
    case 'T':
        return add_transition(n[0], n[1]);
    default: /* A */
        return set_arc(n[0], n[1], n[2], n[3]);
    }
}

/* ---- lines of the script ---- */

static enum refusal script_line(const struct line *line)
{
    struct command *command = &commands[command_count];
    const uint16_t *n = line->n;
    int count = line->count;
    unsigned object = 1;

    command->letter = (char)line->letter;
    if (line->letter == 'g') {
        command->turns = n[0];
        command_count++;
        return FINE;
    }
    if (line->letter == 'p' || line->letter == 'f') {
        object = *n++;
        count--;
    }
    if (!within(n[0], 1, SIGNALS))
        return BAD_SIGNAL;
    count--;
    if (pool_count == 0 || count > pools[pool_count].size)
        return BAD_WORDS;
    if (!within(object, 1, OBJECTS))
        return BAD_OBJECT;
    command->object = (uint8_t)object;
    command->event.signal = (uint8_t)n[0];
    command->event.count = (uint8_t)count;
    memcpy(command->event.words, n + 1, (size_t)count * sizeof *n);
    command_count++;
    return FINE;
}

/* ---- the whole file ---- */

struct fault {
    enum layer layer;
    enum refusal refusal;
    unsigned line;
};

/* The fault of a line, with refusal FINE if there is none. */
static struct fault check_line(const char *start, const char *end, enum part *reached)
{
    struct line line;
    enum part part;

    if (!parse(start, end, &line))
        return (struct fault){IN_FORM, BAD_FORM, 0};
    part = letters[line.letter].part;
    if (part == NO_PART || part < *reached || line.count < letters[line.letter].least ||
        line.count > letters[line.letter].most)
        return (struct fault){IN_FORM, BAD_FORM, 0};
    *reached = part;
    if (part == SETUP)
        return (struct fault){IN_SETUP, setup_line(&line), 0};
    if (part == TABLES)
        return (struct fault){IN_TABLES, table_line(&line), 0};
    return (struct fault){IN_SCRIPT, script_line(&line), 0};
}

static struct fault check_file(const char *text, size_t length)
{
    const char *end = text + length;
    enum part reached = SETUP;
    unsigned number = 0;

    for (int object = 1; object <= OBJECTS; object++)
        waiting[object].length = 4;
    if (length > MAX_FILE || (length > 0 && end[-1] != '\n'))
        return (struct fault){IN_FILE, BAD_FILE, 0};
    while (text < end) {
        const char *line_end = memchr(text, '\n', (size_t)(end - text));
        struct fault fault = check_line(text, line_end, &reached);

        number++;
        if (fault.refusal != FINE) {
            fault.line = number;
            return fault;
        }
        text = line_end + 1;
    }
    return (struct fault){IN_FILE, FINE, 0};
}

/* ---- queues, frames and claims ---- */

static bool is_full(const struct queue *queue)
{
    return queue->count == queue->length;
}

/* Each of these two takes a free place, which the caller has made sure of. */

static void put_last(struct queue *queue, int frame)
{
    queue->ring[(queue->first + queue->count) % MAX_QUEUE] = (uint8_t)frame;
    queue->count++;
    frames[frame].uses++;
}

static void put_first(struct queue *queue, int frame)
{
    queue->first = (uint8_t)((queue->first + MAX_QUEUE - 1) % MAX_QUEUE);
    queue->ring[queue->first] = (uint8_t)frame;
    queue->count++;
    frames[frame].uses++;
}

/* The frame leaves its place and keeps the count; release takes the count away. */
static int take_first(struct queue *queue)
{
    int frame = queue->ring[queue->first];

    queue->first = (uint8_t)((queue->first + 1) % MAX_QUEUE);
    queue->count--;
    return frame;
}

static void release(int frame)
{
    if (--frames[frame].uses == 0) {
        struct pool *pool = &pools[frames[frame].pool];

        pool->list[pool->free++] = (uint8_t)frame;
    }
}

/* A claimed frame, or 0 if the pool that fits has none free. Some pool fits. */
static int allocate(unsigned signal, int count, const uint16_t *words)
{
    struct pool *pool = &pools[1];
    struct frame *frame;
    int number;

    while (pool->size < count)
        pool++;
    if (pool->free == 0)
        return 0;
    number = pool->list[--pool->free];
    frame = &frames[number];
    frame->uses = 1;
    frame->event.signal = (uint8_t)signal;
    frame->event.count = (uint8_t)count;
    memcpy(frame->event.words, words, (size_t)count * sizeof *words);
    return number;
}

/* Post and publish end the claim in every case. */

static enum refusal post(int frame, int object, bool in_front)
{
    struct queue *queue = &waiting[object];
    enum refusal refusal = FINE;

    if (is_full(queue))
        refusal = NO_PLACE;
    else if (in_front)
        put_first(queue, frame);
    else
        put_last(queue, frame);
    release(frame);
    return refusal;
}

/* Answers the receiving set. */
static unsigned publish(int frame)
{
    unsigned set = subscribers[frames[frame].event.signal];
    unsigned received = 0;

    for (int object = OBJECTS; object >= 1; object--) {
        unsigned member = 1u << (object - 1);

        if ((set & member) != 0 && !is_full(&waiting[object])) {
            put_last(&waiting[object], frame);
            received |= member;
        }
    }
    release(frame);
    return received;
}

static enum refusal recall(int object)
{
    int frame;

    if (deferred[object].count == 0)
        return NONE_DEFERRED;
    if (is_full(&waiting[object]))
        return NO_PLACE;
    frame = take_first(&deferred[object]);
    put_first(&waiting[object], frame);
    release(frame);
    return FINE;
}

static enum refusal carry_out(const struct send *send, int object)
{
    int frame;

    if (send->kind == RECALL)
        return recall(object);
    if (send->kind == POST && send->object > OBJECTS)
        return BAD_OBJECT;
    frame = allocate(send->signal, 1, &send->word);
    if (frame == 0)
        return NO_FRAME;
    if (send->kind == POST)
        return post(frame, send->object, false);
    publish(frame);
    return FINE;
}

/* ---- the objects ---- */

static void add_to(struct reaction *reaction, int send)
{
    if (send != 0)
        reaction->sends[reaction->count++] = &sends[send];
}

static bool is_enabled(const struct transition *transition)
{
    for (int place = 1; place <= PLACES; place++) {
        int left = marks[place] - transition->take[place];

        if (left < 0 || left + transition->give[place] > MAX_MARKS)
            return false;
    }
    return true;
}

static void net_handles(const struct event *event, struct reaction *reaction)
{
    static const struct send recalls = {.kind = RECALL};

    for (int t = 1; t <= transition_count; t++) {
        const struct transition *transition = &transitions[t];

        if (transition->signal != event->signal)
            continue;
        if (is_enabled(transition)) {
            for (int place = 1; place <= PLACES; place++)
                marks[place] = (uint8_t)(marks[place] - transition->take[place] + transition->give[place]);
            reaction->verdict = HANDLED;
            add_to(reaction, transition->send);
            reaction->sends[reaction->count++] = &recalls;
            return;
        }
        reaction->verdict = DEFERRED;
    }
}

static void flat_handles(const struct event *event, struct reaction *reaction)
{
    int number = first_flat_row[flat_state][event->signal];
    const struct flat_row *row = &flat_rows[number];

    if (number == 0)
        return;
    if (row->kind == DEFERS) {
        reaction->verdict = DEFERRED;
        return;
    }
    reaction->verdict = HANDLED;
    add_to(reaction, row->send);
    flat_state = row->next;
}

static int settled(int state)
{
    while (states[state].initial != 0)
        state = states[state].initial;
    return state;
}

/* Enters the states below "above" down to "state", outermost first. */
static void enter(int above, int state, struct reaction *reaction)
{
    if (state == above)
        return;
    enter(above, states[state].parent, reaction);
    add_to(reaction, states[state].entry);
}

/* The lowest state on both chains; 0 if there is none. */
static int base_of(int source, int target)
{
    if (source == target)
        return states[source].parent;
    while (source != target) {
        if (states[source].depth >= states[target].depth)
            source = states[source].parent;
        else
            target = states[target].parent;
    }
    return source;
}

/* Initial targets lead down, so all states entered are on the chain of the state reached. */
static void move(int source, int target, struct reaction *reaction)
{
    int base = base_of(source, target);
    int reached = settled(target);

    for (int state = chart_state; state != base; state = states[state].parent)
        add_to(reaction, states[state].exit);
    enter(base, reached, reaction);
    chart_state = reached;
}

static bool applies(const struct row *row, unsigned first_word)
{
    switch (row->guard) {
    case EQUAL:
        return first_word == row->value;
    case BELOW:
        return first_word < row->value;
    default:
        return true;
    }
}

static void chart_handles(const struct event *event, struct reaction *reaction)
{
    unsigned first_word = event->count > 0 ? event->words[0] : 0;

    for (int state = chart_state; state != 0; state = states[state].parent) {
        int number = first_row[state][event->signal];

        for (; number != 0; number = rows[number].next) {
            const struct row *row = &rows[number];

            if (!applies(row, first_word))
                continue;
            if (row->kind == DEFERS) {
                reaction->verdict = DEFERRED;
                return;
            }
            reaction->verdict = HANDLED;
            add_to(reaction, row->send);
            if (row->kind == MOVES)
                move(state, row->target, reaction);
            return;
        }
    }
}

/* ---- dispatch ---- */

/* The object that the policy picks, or 0 if none has a waiting frame. */
static int pick(void)
{
    if (!rotating) {
        int object = OBJECTS;

        while (object > 0 && waiting[object].count == 0)
            object--;
        return object;
    }
    /* Numbers 4 to 8 have no object here, so 1 can follow 3 at once. */
    for (int i = 0; i < OBJECTS; i++) {
        int object = (turn - 1 + i) % OBJECTS + 1;

        if (waiting[object].count > 0) {
            turn = object % OBJECTS + 1;
            return object;
        }
    }
    return 0;
}

/* One dispatch with its line of the listing; false if it was idle. */
static bool dispatch(void)
{
    struct reaction reaction = {.verdict = IGNORED};
    const struct event *event;
    int object = pick();
    int frame;

    put_letter('g');
    put_number((unsigned)object);
    if (object == 0) {
        end_line();
        return false;
    }
    frame = take_first(&waiting[object]);
    event = &frames[frame].event;
    if (object == 1)
        net_handles(event, &reaction);
    else if (object == 2)
        flat_handles(event, &reaction);
    else
        chart_handles(event, &reaction);
    if (reaction.verdict == DEFERRED) {
        if (is_full(&deferred[object]))
            reaction.verdict = SHED;
        else
            put_last(&deferred[object], frame);
    }
    put_number(event->signal);
    put_verdict(reaction.verdict);
    for (int i = 0; i < reaction.count; i++)
        put_number(carry_out(reaction.sends[i], object));
    end_line();
    release(frame);
    return true;
}

/* ---- running the script ---- */

static void open_kernel(void)
{
    int number = 0;

    for (int p = 1; p <= pool_count; p++) {
        struct pool *pool = &pools[p];

        pool->free = pool->count;
        for (int i = 1; i <= pool->count; i++) {
            number++;
            frames[number].pool = (uint8_t)p;
            pool->list[pool->count - i] = (uint8_t)number;
        }
    }
    chart_state = state_count > 0 ? settled(1) : 0;
}

static void run_command(const struct command *command)
{
    const struct event *event = &command->event;
    enum refusal refusal = FINE;
    unsigned received = 0;
    int frame;

    if (command->letter == 'g') {
        for (int left = command->turns; left > 0 && dispatch(); left--)
            ;
        return;
    }
    frame = allocate(event->signal, event->count, event->words);
    if (frame == 0)
        refusal = NO_FRAME;
    else if (command->letter == 'b')
        received = publish(frame);
    else if (command->letter == 'r')
        release(frame);
    else
        refusal = post(frame, command->object, command->letter == 'f');
    put_letter(command->letter);
    put_number(refusal);
    if (command->letter == 'b')
        put_number(received);
    end_line();
}

static void run_script(void)
{
    open_kernel();
    for (int i = 0; i < command_count; i++)
        run_command(&commands[i]);
    put_letter('z');
    for (int p = 1; p <= pool_count; p++)
        put_number(pools[p].free);
    end_line();
}

int main(void)
{
    static char text[MAX_FILE + 1]; /* one byte more shows that a file is too long */
    size_t length;
    struct fault fault;

#ifdef SIGPIPE
    signal(SIGPIPE, SIG_IGN); /* a closed pipe is then an error of writing */
#endif
    setvbuf(stdin, NULL, _IONBF, 0); /* reads no further than asked */
    length = fread(text, 1, sizeof text, stdin);
    if (ferror(stdin))
        fail("cannot read");
    fault = check_file(text, length);
    if (fault.refusal == FINE) {
        run_script();
    } else {
        put_letter('!');
        put_number(fault.layer);
        put_number(fault.refusal);
        put_number(fault.line);
        end_line();
    }
    write_out();
    if (fflush(stdout) != 0)
        fail("cannot write");
    return 0;
}
