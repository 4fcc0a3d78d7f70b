/* A search over the machine in C (machine.c) as a model checker does it: what the time and the memory of `adarun search` are compared with.

       searching IMG CHOICES UNTIL LIMIT

   It looks for an unhandled exception or waiting forever, in images without handlers of interrupts. Slots of one time are a group. From each
   world just before the time of a group, for each combination of the group's alternatives, the machine runs up to just before the time of the
   next group. A world is saved as the words on which its future depends: shared words, queued calls, sleepers, the frames of tasks with their
   words, and the values of the channels. Worlds are hashed, compared word by word, and kept once; each has the world that it came from and its
   combination. LIMIT is that of the steps from one group to the next one. The set is trusted: it has passed the rules of docs/FORMATS.md.

   It writes `found OUTCOME at T` or `none`, how many worlds there were, how many at one time at most, and how many runs between two groups. */
#define KEEPS_TIME 1
#define main machine_main
#include "machine.c"
#undef main

enum { SLOTS = 4096, ALTERNATIVES = 4096, LINE_TEXT = 1 << 16 };

struct slot { int64_t time; int channel, count; int64_t *values; unsigned char *is_line; };
struct world { size_t first; uint32_t length; int64_t now; };
struct frontier { struct world *worlds; size_t count, room; int64_t *words; size_t used, words_room; };

static struct slot slots[SLOTS];
static int slot_count;
static int64_t first_shared[WORDS];
static uint64_t limit;
static size_t all_worlds, most_worlds, segments;
static struct frontier here, there;
static uint32_t *table;
static size_t table_size;

static void *grown(void *old, size_t bytes)
{
    void *made = realloc(old, bytes);
    if (made == NULL) {
        fputs("no memory\n", stderr);
        exit(8);
    }
    return made;
}

/* The set of schedules */

static void add_slot(int64_t time, int channel, char *text)
{
    static int64_t values[ALTERNATIVES];
    static unsigned char is_line[ALTERNATIVES];
    int count = 0;
    for (char *part = strtok(text, "|\n"); part != NULL; part = strtok(NULL, "|\n")) {
        char *dots = strstr(part, "..");
        int64_t value = strtoll(part, NULL, 10), last = dots != NULL ? strtoll(dots + 2, NULL, 10) : value;
        for (int is_value = strcmp(part, "-") != 0; value <= last; value++) {
            values[count] = value;
            is_line[count++] = (unsigned char)is_value;
        }
    }
    int at = slot_count++;
    for (; at > 0 && time < slots[at - 1].time; at--) {
        slots[at] = slots[at - 1];
    }
    slots[at] = (struct slot){time, channel, count, grown(NULL, sizeof *values * (size_t)count), grown(NULL, (size_t)count)};
    memcpy(slots[at].values, values, sizeof *values * (size_t)count);
    memcpy(slots[at].is_line, is_line, (size_t)count);
}

static void read_choices(const char *name)
{
    static char line[LINE_TEXT], copy[LINE_TEXT];
    FILE *file = fopen(name, "rb");
    while (file != NULL && fgets(line, sizeof line, file) != NULL) {
        char *at = line;
        int64_t first = strtoll(at, &at, 10), last = first, step = 1;
        if (*at == '.') {
            last = strtoll(at + 2, &at, 10);
            step = strtoll(at + 1, &at, 10);
        }
        int channel = (int)strtol(at, &at, 10);
        for (int64_t time = first; time <= last; time += step) {
            strcpy(copy, at + 1);
            add_slot(time, channel, copy);
        }
    }
}

/* Saving and restoring: nobody runs or is ready, and no action is open */

static int shared_count(void)
{
    int count = plain_count;
    for (int i = 0; i < object_count; i++) {
        count += objects[i].size;
    }
    return count;
}

static size_t save_task(const struct task *task, int64_t *row)
{
    size_t length = 0;
    row[length++] = task->frame - task->frames;
    row[length++] = task->raising;
    row[length++] = task->top - task->words;
    for (const struct frame *frame = task->frames; frame <= task->frame; frame++) {
        row[length++] = (frame->at - code) << 8 | frame->role;
        row[length++] = (frame->body - subprograms) << 32 | (frame->locals - task->words);
    }
    memcpy(row + length, task->words, sizeof *row * (size_t)(task->top - task->words));
    return length + (size_t)(task->top - task->words);
}

static size_t save(int64_t *row)
{
    size_t length = (size_t)shared_count();
    memcpy(row, shared, sizeof *row * length);
    memcpy(row + length, inputs, sizeof inputs);
    length += CHANNELS + 1;
    for (int i = 0; i < object_count; i++) {
        row[length++] = objects[i].queued;
    }
    row[length++] = sleeper_count;
    for (int i = 0; i < sleeper_count; i++) {
        row[length++] = sleepers[i].task;
        row[length++] = sleepers[i].wake;
    }
    for (int i = 0; i < task_count; i++) {
        length += save_task(&tasks[i], row + length);
    }
    return length;
}

static const int64_t *restore_task(struct task *task, const int64_t *row)
{
    task->frame = task->frames + *row++;
    task->raising = (int)*row++;
    task->top = task->words + *row++;
    task->active = task->base;
    for (struct frame *frame = task->frames; frame <= task->frame; frame++, row += 2) {
        *frame = (struct frame){code + (row[0] >> 8), task->words + (uint32_t)row[1], subprograms + (row[1] >> 32), (enum role)(row[0] & 255), NOBODY, 0};
    }
    memcpy(task->words, row, sizeof *row * (size_t)(task->top - task->words));
    return row + (task->top - task->words);
}

static void restore(const int64_t *row)
{
    size_t length = (size_t)shared_count();
    memcpy(shared, row, sizeof *row * length);
    memcpy(inputs, row + length, sizeof inputs);
    row += length + CHANNELS + 1;
    for (int i = 0; i < object_count; i++) {
        objects[i].queued = (int)*row++;
    }
    sleeper_count = (int)*row++;
    for (int i = 0; i < sleeper_count; i++, row += 2) {
        sleepers[i] = (struct sleeper){(int)row[0], row[1]};
    }
    for (int i = 0; i < task_count; i++) {
        row = restore_task(&tasks[i], row);
    }
    running = NOBODY;
    ready_lists = 0;
    outcome = GOES_ON;
}

static void start(void)
{
    memcpy(shared, first_shared, sizeof *shared * (size_t)shared_count());
    memset(inputs, 0, sizeof inputs);
    for (int i = 0; i < object_count; i++) {
        objects[i].queued = NOBODY;
    }
    for (int i = 0; i < task_count; i++) {
        tasks[i].raising = tasks[i].actions_open = 0;
        tasks[i].active = tasks[i].base;
    }
    running = NOBODY;
    ready_lists = 0;
    sleeper_count = 0;
    now = 0;
    outcome = GOES_ON;
    begin();
}

/* The frontier */

static uint64_t hash_of(const int64_t *row, size_t length)
{
    uint64_t hash = length;
    for (size_t i = 0; i < length; i++) {
        hash = (hash ^ (uint64_t)row[i]) * UINT64_C(0x9e3779b97f4a7c15);
        hash ^= hash >> 29;
    }
    return hash;
}

static void place_worlds(size_t size)
{
    table = grown(table, sizeof *table * size);
    table_size = size;
    memset(table, 0, sizeof *table * size);
    for (size_t i = 0; i < there.count; i++) {
        struct world world = there.worlds[i];
        size_t at = hash_of(there.words + world.first, world.length) & (size - 1);
        while (table[at] != 0) {
            at = (at + 1) & (size - 1);
        }
        table[at] = (uint32_t)i + 1;
    }
}

/* The world that follows the words of `there` is kept if it is new. */
static void keep(size_t length)
{
    const int64_t *row = there.words + there.used;
    size_t at = hash_of(row, length) & (table_size - 1);
    for (; table[at] != 0; at = (at + 1) & (table_size - 1)) {
        struct world world = there.worlds[table[at] - 1];
        if (world.length == length && memcmp(there.words + world.first, row, sizeof *row * length) == 0) {
            return;
        }
    }
    if (there.count == there.room) {
        there.room = there.room * 2 + 64;
        there.worlds = grown(there.worlds, sizeof *there.worlds * there.room);
    }
    there.worlds[there.count++] = (struct world){there.used, (uint32_t)length, now};
    there.used += length;
    table[at] = (uint32_t)there.count;
    if (table_size < there.count * 2) {
        place_worlds(table_size * 2);
    }
}

static void found(void)
{
    static const char *const words[] = {"more steps", "ended", "waits forever", "unhandled", "image fault"};
    printf("found %s at %" PRId64 ", %zu worlds, %zu at one time, %zu runs\n", words[outcome], now, all_worlds, most_worlds, segments);
    exit(0);
}

/* Runs up to just before `bound`; whether the world is still going on. */
static int advance(int64_t bound)
{
    segments++;
    for (;;) {
        run(limit);
        written = 0;
        if (outcome == GOES_ON && running == NOBODY) {
            int64_t next = INT64_MAX;
            for (int i = 0; i < sleeper_count; i++) {
                next = sleepers[i].wake < next ? sleepers[i].wake : next;
            }
            if (sleeper_count != 0 && bound <= next) {
                return 1;
            }
            move_time();
        } else if (outcome == GOES_ON) {
            found();
        }
        if (outcome == WAITS_FOREVER || outcome == UNHANDLED) {
            found();
        }
        if (outcome != GOES_ON) {
            return 0;
        }
    }
}

static void room_for_a_world(void)
{
    size_t most = 2 * WORDS + (size_t)task_count * 1024;
    for (int i = 0; i < task_count; i++) {
        most += (size_t)(tasks[i].top - tasks[i].words) + 2 * FRAMES;
    }
    if (there.words_room < there.used + most) {
        there.words_room = 2 * (there.used + most);
        there.words = grown(there.words, sizeof *there.words * there.words_room);
    }
}

/* From a world of `here`, or from the start, for each combination of the slots from `first` to `last`, up to `bound`. */
static void expand(const struct world *world, int first, int last, int64_t bound)
{
    static int places[SLOTS];
    memset(places, 0, sizeof places);
    for (int slot = 0; slot >= 0;) {
        if (world == NULL) {
            start();
        } else {
            now = world->now;
            restore(here.words + world->first);
        }
        schedule_lines = lines_heard = 0;
        for (int i = first; i < last; i++) {
            if (slots[i].is_line[places[i - first]]) {
                schedule[schedule_lines++] = (struct input_line){slots[i].time, slots[i].values[places[i - first]], slots[i].channel};
            }
        }
        if (advance(bound)) {
            for (; lines_heard < schedule_lines; lines_heard++) {
                inputs[schedule[lines_heard].channel] = schedule[lines_heard].value;
            }
            room_for_a_world();
            keep(save(there.words + there.used));
        }
        for (slot = last - first - 1; slot >= 0 && ++places[slot] == slots[first + slot].count; slot--) {
            places[slot] = 0;
        }
    }
}

int main(int count, char **words)
{
    if (count != 5) {
        fputs("usage\n", stderr);
        return 1;
    }
    read_image(words[1]);
    read_choices(words[2]);
    int64_t until = strtoll(words[3], NULL, 10);
    limit = strtoull(words[4], NULL, 10);
    memcpy(first_shared, shared, sizeof shared);
    int is_started = 0;
    for (int first = 0, last = 0; first < slot_count || !is_started; first = last) {
        for (last = first; last < slot_count && slots[last].time == slots[first].time; last++) {
        }
        if (!is_started && (slot_count == 0 || slots[0].time > 0)) {
            last = 0; /* from the start to the first group */
        }
        int64_t bound = last < slot_count ? slots[last].time : until + 1;
        there.count = there.used = 0;
        place_worlds(1024);
        if (!is_started) {
            expand(NULL, first, last, bound);
        } else {
            for (size_t i = 0; i < here.count; i++) {
                expand(&here.worlds[i], first, last, bound);
            }
        }
        is_started = 1;
        struct frontier old = here;
        here = there;
        there = old;
        all_worlds += here.count;
        most_worlds = most_worlds < here.count ? here.count : most_worlds;
        if (slot_count == 0) {
            break;
        }
    }
    printf("none, %zu worlds, %zu at one time, %zu runs\n", all_worlds, most_worlds, segments);
    return 0;
}
