// A tuned bench, the floor that the benchmark measures from. It prints what bench prints for every sheet, refused ones
// included, and is not proved. Where it saves:
// - tolerated sets are a table of 128 bits; the sheet is judged and decoded in one pass;
// - there is one tree for all boards, of nodes only, and a list of cells for each sender's frame of a round;
// - what boards outside F send is the same for all receivers, so it is stored once and copied (lists lie within F,
//   so nothing of it is masked);
// - children that are all worth the same need one comparison of sixteen bytes (least byte first).
//
// `floor largest` does what the program `largest` does: it closes the largest round a hundred times.
#include <stdint.h>
#include <string.h>
#include <unistd.h>

enum { BOARDS = 7, SETS = 32, LONGEST = 65536, WIDEST = 720, NONE = 65535 };

// The plan.
static int n, span, default_value, dealer, depth, value, faulty, all;
static int rounds, runs;
static uint64_t tolerated_sets[2];
static const uint8_t *listed; // the sets, then F, which holds every list

// Nodes stand in cell order. The children of internal node t of a level stand together, from t * (children) on.
typedef struct {
    int nodes, inner;
    uint8_t set[WIDEST], last[WIDEST]; // of an internal node
    uint16_t at[WIDEST];               // its place among the nodes of its level
} Level;
static Level levels[BOARDS + 1];

// The frame of a sender in a round: the nodes that it reports, and their children by the sender.
typedef struct {
    int count;
    uint16_t from[WIDEST], to[WIDEST];
} Report;
static Report reports[BOARDS + 1][BOARDS];

// The boards; eight cells more, since children are read eight at a time.
static uint16_t cells[BOARDS][BOARDS + 1][WIDEST + 8];
static int lists[BOARDS];

// The frame lines, in order.
typedef struct {
    uint32_t key; // run, round, sender, receiver
    uint16_t start, count;
} Line;
static Line lines[LONGEST / 9 + 1];
static int line_count;
static uint8_t text[LONGEST + 2], bytes[LONGEST / 2];

static int has(int set, int board) { return set >> board & 1; }

static int tolerated(int set) { return tolerated_sets[set >> 6] >> (set & 63) & 1; }

// The place of the first listed set that holds a list; 0 for the empty one.
static int place_of(int set)
{
    int place = 0;
    while (set & ~listed[place])
        place++;
    return place;
}

// Structures

// Tolerated is what lies within a listed set: board by board, a set without it is if the set with it is.
static void tolerate(const uint8_t *sets, int count)
{
    static const uint64_t with[6] = {0xAAAAAAAAAAAAAAAA, 0xCCCCCCCCCCCCCCCC, 0xF0F0F0F0F0F0F0F0,
                                     0xFF00FF00FF00FF00, 0xFFFF0000FFFF0000, 0xFFFFFFFF00000000};
    uint64_t low = 1, high = 0;
    for (int i = 0; i < count; i++)
        *(sets[i] >> 6 ? &high : &low) |= (uint64_t)1 << (sets[i] & 63);
    for (int board = 0; board < 6; board++) {
        low |= (low & with[board]) >> (1 << board);
        high |= (high & with[board]) >> (1 << board);
    }
    tolerated_sets[0] = low | high;
    tolerated_sets[1] = high;
}

// Three listed sets cover if what two leave is tolerated.
static int three_cover(const uint8_t *sets, int count)
{
    for (int i = 0; i < count; i++)
        for (int j = i; j < count; j++)
            if (tolerated(all & ~(sets[i] | sets[j])))
                return 1;
    return 0;
}

static void schedule(const uint8_t *sets, int count)
{
    int height = 1;
    for (int i = 0; i < count; i++)
        if (has(sets[i], dealer) && __builtin_popcount(sets[i]) >= height)
            height = __builtin_popcount(sets[i]) + 1;
    rounds = height;
    runs = 1;
    if (depth && height > depth) {
        rounds = depth;
        runs = (n - 3 + depth - 4) / (depth - 3) + 1;
    }
}

static void grow(void)
{
    static uint8_t set[BOARDS + 1][WIDEST], last[BOARDS + 1][WIDEST];
    levels[1].nodes = 1;
    set[1][0] = 1 << dealer;
    last[1][0] = dealer;
    for (int k = 1; k < rounds; k++) {
        Level *level = &levels[k];
        int inner = 0, next = 0;
        for (int i = 0; i < level->nodes; i++) {
            if (!tolerated(set[k][i]))
                continue;
            level->set[inner] = set[k][i];
            level->last[inner] = last[k][i];
            level->at[inner++] = i;
            for (int rest = all & ~set[k][i]; rest; rest &= rest - 1, next++) {
                int board = __builtin_ctz(rest);
                Report *report = &reports[k + 1][board];
                report->from[report->count] = i;
                report->to[report->count++] = next;
                set[k + 1][next] = set[k][i] | 1 << board;
                last[k + 1][next] = board;
            }
        }
        level->inner = inner;
        levels[k + 1].nodes = next;
    }
}

// The rules

// Children that are worth something else than a value.
static inline int others(int children, const uint16_t *worth, int than)
{
    int set = 0;
    for (; children; children &= children - 1)
        set |= *worth++ == than ? 0 : children & -children;
    return set;
}

// Eight cells.
typedef unsigned __int128 Eight;

// Whether all children are worth the same; `used` has the bits of all children but the last.
static inline int alike(const uint16_t *worth, Eight used)
{
    Eight eight;
    memcpy(&eight, worth, sizeof eight);
    return !((eight ^ eight >> 16) & used);
}

static Eight but_last(int children) { return ((Eight)1 << 16 * (children - 1)) - 1; }

static int explained(int children, const uint16_t *worth, int list)
{
    for (int i = 0, count = __builtin_popcount(children); i < count; i++)
        if (worth[i] != NONE && tolerated(others(children, worth, worth[i]) | list))
            return 1;
    return 0;
}

static int vote(int children, const uint16_t *worth)
{
    int found = NONE;
    for (int i = 0, count = __builtin_popcount(children); i < count; i++) {
        if (worth[i] == NONE || worth[i] == found || tolerated(children & ~others(children, worth, worth[i])))
            continue;
        if (found != NONE)
            return NONE;
        found = worth[i];
    }
    return found;
}

// Rule G in a round. Children that are alike are explained, since the list is tolerated.
static void detect(int board, int round)
{
    const Level *level = &levels[round - 1];
    uint16_t *to = cells[board][round], *worth = to;
    int list = lists[board], width = n - round + 1;
    Eight used = but_last(width);
    for (int t = 0; t < level->inner; t++, worth += width) {
        int last = level->last[t];
        if (alike(worth, used) || has(list, last) || explained(all & ~level->set[t], worth, list))
            continue;
        list |= 1 << last;
        const Report *report = &reports[round][last];
        for (int i = 0; i < report->count; i++)
            to[report->to[i]] = default_value;
    }
    lists[board] = list;
}

// Resolves from the last level up, in place, with rule C on the way; the root becomes the root cell. The children of an
// internal node are not tolerated (three would cover), so a value that all are worth is voted for.
static void convert(int board)
{
    int list = lists[board];
    for (int k = rounds - 1; k >= 1; k--) {
        const Level *level = &levels[k];
        const uint16_t *worth = cells[board][k + 1];
        int width = n - k;
        Eight used = but_last(width);
        for (int t = 0; t < level->inner; t++, worth += width) {
            int last = level->last[t], children = all & ~level->set[t], to = level->at[t];
            if (alike(worth, used) && *worth != NONE) {
                cells[board][k][to] = *worth;
                continue;
            }
            if (!has(list, last) && !explained(children, worth, list))
                list |= 1 << last;
            cells[board][k][to] = vote(children, worth);
        }
    }
    if (cells[board][1][0] == NONE)
        cells[board][1][0] = default_value;
    lists[board] = list;
}

// Playing

// What the boards outside F send, which each of them also has of itself; the default for all others.
static void fill(uint16_t *row, int round, int keepers)
{
    for (int i = 0; i < levels[round].nodes; i++)
        row[i] = default_value;
    for (; keepers; keepers &= keepers - 1) {
        int board = __builtin_ctz(keepers);
        const Report *report = &reports[round][board];
        const uint16_t *from = cells[board][round - 1];
        for (int i = 0; i < report->count; i++)
            row[report->to[i]] = from[report->from[i]];
    }
}

// Two bytes as a number, the high one first.
static int number_at(const uint8_t *at) { return at[0] << 8 | at[1]; }

// A frame of a faulty board. Round 1 has the dealer's value only.
static void store(const Line *line)
{
    int round = line->key >> 16 & 255, sender = line->key >> 8 & 255, receiver = line->key & 255;
    const Report *report = &reports[round][sender];
    const uint8_t *from = bytes + line->start;
    uint16_t *to = cells[receiver][round];
    if (line->count != 2 * report->count || has(lists[receiver], sender))
        return;
    for (int i = 0; i < report->count; i++, from += 2) {
        int told = number_at(from);
        to[report->to[i]] = told < span ? told : default_value;
    }
}

static void play(int keepers)
{
    static uint16_t row[WIDEST];
    const Line *line = lines, *end = lines + line_count;
    reports[1][dealer].count = 1;
    for (int run = 1; run <= runs; run++) {
        for (int round = run == 1 ? 1 : 2; round <= rounds; round++) {
            if (round == 1)
                row[0] = has(faulty, dealer) ? default_value : value;
            else
                fill(row, round, keepers);
            for (int rest = keepers; rest; rest &= rest - 1)
                memcpy(cells[__builtin_ctz(rest)][round], row, levels[round].nodes * sizeof *row);
            for (; line < end && line->key >> 16 == (uint32_t)(run << 8 | round); line++)
                store(line);
            if (round > 1)
                for (int rest = keepers; rest; rest &= rest - 1)
                    detect(__builtin_ctz(rest), round);
        }
        for (int rest = keepers; rest; rest &= rest - 1)
            convert(__builtin_ctz(rest));
    }
}

// Text

static int print(const char *printed, int count) { return write(1, printed, count) != count; }

static char *print_byte(char *to, int byte)
{
    *to++ = "0123456789ABCDEF"[byte >> 4];
    *to++ = "0123456789ABCDEF"[byte & 15];
    return to;
}

static char *print_pair(char *to, int pair) { return print_byte(print_byte(to, pair >> 8), pair & 255); }

static int refuse(int number, int line)
{
    char printed[9], *to = print_byte(printed, 255);
    to = print_byte(to, number);
    to = print_pair(to, line);
    *to = '\n';
    return print(printed, 9);
}

static int report(void)
{
    char printed[77], *to = printed;
    for (int rest = all & ~faulty; rest; rest &= rest - 1) {
        int board = __builtin_ctz(rest);
        to = print_byte(to, board);
        to = print_pair(to, board == dealer ? value : cells[board][1][0]);
        to = print_byte(to, lists[board]);
        to = print_byte(to, place_of(lists[board]));
        *to++ = '\n';
    }
    return print(printed, to - printed);
}

// A digit's number, and 16 to tell it from other characters.
static const uint8_t digits[256] = {
    ['0'] = 16, ['1'] = 17, ['2'] = 18, ['3'] = 19, ['4'] = 20, ['5'] = 21, ['6'] = 22, ['7'] = 23,
    ['8'] = 24, ['9'] = 25, ['A'] = 26, ['B'] = 27, ['C'] = 28, ['D'] = 29, ['E'] = 30, ['F'] = 31};

// Decodes a line and goes past it; the number of bytes, or -1 for number 21. After the sheet stands 0, which is no
// digit.
static int decode(const uint8_t **from, uint8_t *to)
{
    const uint8_t *p = *from;
    uint8_t *start = to;
    for (; *p != '\n'; p += 2) {
        int high = digits[p[0]], low = digits[p[1]];
        if (!(high & low & 16))
            return -1;
        *to++ = high << 4 | (low & 15);
    }
    *from = p + 1;
    return to - start;
}

// The number that the head meets, or 0 and the plan.
static int judge_head(const uint8_t *head, int count)
{
    if (count < 11 || count != 11 + head[9])
        return 22;
    const uint8_t *sets = listed = head + 10;
    int set_count = head[9], named = 0;
    n = head[0], span = number_at(head + 1), default_value = number_at(head + 3), dealer = head[5], depth = head[6];
    value = number_at(head + 7), faulty = head[count - 1];
    if (n == 0 || n > BOARDS)
        return 1;
    all = (1 << n) - 1;
    if (set_count > SETS)
        return 3;
    for (int i = 0; i < set_count; i++)
        named |= sets[i];
    if (named & ~all)
        return 4;
    tolerate(sets, set_count);
    if (named == all && three_cover(sets, set_count))
        return 5;
    if (dealer >= n)
        return 6;
    if (span < 2)
        return 7;
    if (default_value >= span)
        return 26;
    if ((depth && depth < 4) || depth > 7)
        return 8;
    if (value >= span)
        return 18;
    if (faulty & ~all || !tolerated(faulty))
        return 23;
    schedule(sets, set_count);
    return 0;
}

// Whether a frame line may follow a line with the key before.
static int may_follow(const uint8_t *line, uint32_t key, uint32_t before)
{
    int run = line[0], round = line[1], sender = line[2], receiver = line[3];
    if (key <= before || sender >= n || !has(faulty, sender) || receiver >= n || has(faulty | 1 << dealer, receiver))
        return 0;
    if (run < 1 || run > runs || round < 1 || round > rounds)
        return 0;
    return round == 1 ? run == 1 && sender == dealer : reports[round][sender].count > 0;
}

// The number that a frame line meets, or 0 and the line.
static int judge_frames(const uint8_t *from, const uint8_t *end, uint8_t *to)
{
    for (uint32_t before = 0; from < end; line_count++) {
        int count = decode(&from, to);
        if (count < 0)
            return 21;
        if (count < 4)
            return 24;
        uint32_t key = (uint32_t)to[0] << 24 | to[1] << 16 | to[2] << 8 | to[3];
        if (!may_follow(to, key, before))
            return 24;
        lines[line_count] = (Line){key, to + 4 - bytes, count - 4};
        before = key;
        to += count;
    }
    return 0;
}

static int bench(void)
{
    int length = 0, got, number;
    while (length <= LONGEST && (got = read(0, text + length, LONGEST + 1 - length)) > 0)
        length += got;
    if (length > LONGEST)
        return refuse(20, 0);
    if (length == 0)
        return refuse(22, 1);
    const uint8_t *from = text;
    int count = decode(&from, bytes);
    if (count < 0)
        return refuse(21, 1);
    if ((number = judge_head(bytes, count)))
        return refuse(number, 1);
    grow();
    if ((number = judge_frames(from, text + length, bytes + count)))
        return refuse(number, line_count + 2);
    play(all & ~faulty & ~(1 << dealer));
    return report();
}

// The largest closing

// Where the nodes of each level stand among the places of 01, counted from the root.
static void find_places(uint16_t place[BOARDS + 1][WIDEST])
{
    int start = 1, size = n - 1;
    place[1][0] = 0;
    for (int k = 1, before = 0; k < rounds; before = start, start += size, size *= n - ++k)
        for (int i = 0, width = n - k; i < levels[k + 1].nodes; i++)
            place[k + 1][i] = start + (place[k][levels[k].at[i / width]] - before) * width + i % width;
}

static int largest(void)
{
    static uint16_t place[BOARDS + 1][WIDEST];
    enum { OWN = 6, TIMES = 100 };
    uint8_t sets[SETS];
    memset(sets, 1, SETS);
    sets[SETS - 1] = 63;
    n = 7, span = 65535, all = 127;
    tolerate(sets, SETS);
    schedule(sets, SETS);
    grow();
    find_places(place);
    for (int time = 0; time < TIMES; time++) {
        for (int k = 1; k < rounds; k++)
            for (int i = 0; i < levels[k].nodes; i++)
                cells[OWN][k][i] = 65534 - place[k][i];
        lists[OWN] = 0;
        fill(cells[OWN][rounds], rounds, 1 << OWN);
        detect(OWN, rounds);
        convert(OWN);
    }
    char printed[3] = {cells[OWN][1][0] >> 8, cells[OWN][1][0], lists[OWN]};
    return print(printed, 3);
}

int main(int count, char **words)
{
    return count == 2 && !strcmp(words[1], "largest") ? largest() : bench();
}
