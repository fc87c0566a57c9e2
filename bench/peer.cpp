// A verdict in C++ that takes every short cut: what the proved call's cost is held to.
//
// It copies the sheet into a padded buffer (so that wide loads may run past its end), reads in one pass, judges, and
// fills the rest of the verdict buffer with zeros. It is for x86-64, as the proved library is.
//
// Reading: the prefix of every go and view line is known beforehand and compared as words; numbers are converted eight
// bytes at once; any surprise goes to a slow path that names the refusal.
// Views: classes are made dense bytes; each state's lowest alike state stands for its class, so output and step are one
// comparison a state and not one a pair; respect and needed arrows compare the classes of all boxes at once.
// Sameness: rounds of Moore, so that the depth comes out, but a round splits only by the smaller parts of what the last
// round split (Hopcroft's trick, level by level), on 128-bit masks; where many parts are new, a round groups whole rows
// by hash instead.
#include <cstdint>
#include <cstdio>
#include <cstring>
#include <emmintrin.h>
#include <zarpalume.h>

typedef uint8_t u8;
typedef uint16_t u16;
typedef uint32_t u32;
typedef uint64_t u64;

enum { MOST_STATES = ZARPALUME_STATES, MOST_ACTIONS = ZARPALUME_ACTIONS, MOST_BOXES = ZARPALUME_BOXES };
typedef u8 Row __attribute__((vector_size(MOST_BOXES)));  // a byte for each box
typedef u32 Boxes;  // a bit for each box
static_assert(MOST_BOXES <= 32);

// ------------------------------------------------------------------ the model

struct Set {  // a set of states
    u64 low, high;
    bool empty() const { return !(low | high); }
    bool single() const { return low ? !(low & (low - 1)) && !high : !(high & (high - 1)); }
    bool has(u32 s) const { return ((s < 64 ? low : high) >> (s & 63)) & 1; }
    void add(u32 s) { (s < 64 ? low : high) |= 1ull << (s & 63); }
    void remove(u32 s) { (s < 64 ? low : high) &= ~(1ull << (s & 63)); }
    int lowest() const { return low ? __builtin_ctzll(low) : 64 + __builtin_ctzll(high); }
    void drop_lowest() { if (low) low &= low - 1; else high &= high - 1; }
};
static inline Set operator&(Set a, Set b) { return {a.low & b.low, a.high & b.high}; }
static inline Set operator|(Set a, Set b) { return {a.low | b.low, a.high | b.high}; }
static inline Set minus(Set a, Set b) { return {a.low & ~b.low, a.high & ~b.high}; }

struct Model {
    u32 states, actions, boxes, start;
    u16 id[MOST_BOXES];
    u8 owner[MOST_ACTIONS];
    Boxes arrow[MOST_BOXES];  // bit u of arrow[v]: v interferes with u
    u8 next[MOST_STATES * MOST_ACTIONS];  // s * actions + a
    alignas(16) u8 by_action[MOST_ACTIONS][MOST_STATES];  // the same, by action
    u16 out[MOST_STATES * MOST_ACTIONS];
    u8 view[MOST_BOXES][MOST_STATES];  // dense classes, below MOST_STATES
    Row row[MOST_STATES];  // the same, by state
};

static Model the_model;
static u8 padded[ZARPALUME_SHEET_BYTES + 64];
static u8 position_of[65536];  // box position + 1, or 0
static u32 state_text[MOST_STATES], state_text_length[MOST_STATES];  // "123\t" as bytes, and its length

struct Refusal { u32 number, line; };

// ------------------------------------------------------------------ parsing, slow and exact

enum Word { SHEET, BOX, ACT, GO, FLOW, BOTH, VIEW };
static const char *const WORD[] = {"sheet", "box", "act", "go", "flow", "both", "view"};
static const u8 FIELDS[] = {5, 3, 2, 5, 3, 3, 4};

struct Line {
    u32 word, value[4];
    const u8 *label;
    u32 label_length;
    const u8 *after;  // the line after it
};

static bool number(const u8 *field, size_t n, u32 &value) {
    if (n < 1 || n > 5 || (n > 1 && field[0] == '0')) return false;
    value = 0;
    for (size_t i = 0; i < n; i++) {
        u32 digit = field[i] - '0';
        if (digit > 9) return false;
        value = value * 10 + digit;
    }
    return value <= 65535;
}

// 0, or the number of the refusal; 11 when the text has ended
static u32 take(const u8 *text, const u8 *end, u32 allowed, Line &record) {
    if (text == end) return 11;
    const u8 *line_end = (const u8 *)memchr(text, '\n', end - text);
    const u8 *field[6];
    u32 length[6], count = 0;
    for (const u8 *from = text;;) {
        const u8 *tab = (const u8 *)memchr(from, '\t', line_end - from);
        const u8 *stop = tab ? tab : line_end;
        if (count < 6) field[count] = from, length[count] = stop - from;
        count++;
        if (!tab) break;
        from = tab + 1;
    }
    u32 word = 0;
    while (word < 7 && !((allowed >> word & 1) && length[0] == strlen(WORD[word]) && !memcmp(field[0], WORD[word], length[0]))) word++;
    if (word == 7) return 2;
    if (count != FIELDS[word]) return 3;
    u32 numbers = word == BOX ? 1 : count - 1;
    for (u32 i = 0; i < numbers; i++)
        if (!number(field[i + 1], length[i + 1], record.value[i])) return 4;
    record.word = word;
    if (word == BOX) record.label = field[2], record.label_length = length[2];
    record.after = line_end + 1;
    return 0;
}

// ------------------------------------------------------------------ parsing, fast

static inline u64 load8(const u8 *p) { u64 w; memcpy(&w, p, 8); return w; }
static inline u32 load4(const u8 *p) { u32 w; memcpy(&w, p, 4); return w; }

// the number in the first n (1 to 5) of eight bytes; all are digits
static inline u32 digits(u64 bytes, u32 n) {
    bytes = (bytes ^ 0x3030303030303030ull) << (64 - 8 * n);
    bytes = bytes * 10 + (bytes >> 8);  // pairs, in bytes 0, 2, 4, 6
    bytes = (((bytes & 0x000000FF000000FFull) * 0x000F424000000064ull) +
         (((bytes >> 16) & 0x000000FF000000FFull) * 0x0000271000000001ull)) >> 32;
    return (u32)bytes;
}

// where the first and the second byte that is no digit stand in the 16 at p (16: nowhere)
static inline void stops(const u8 *p, u32 &i, u32 &j) {
    __m128i digit = _mm_sub_epi8(_mm_loadu_si128((const __m128i *)p), _mm_set1_epi8('0'));
    u32 mask = ~_mm_movemask_epi8(_mm_cmpeq_epi8(_mm_min_epu8(digit, _mm_set1_epi8(9)), digit)) & 0xFFFF;
    i = __builtin_ctz(mask | 0x10000);
    j = __builtin_ctz((mask & (mask - 1)) | 0x10000);
}

// where the first byte that is no digit stands in eight bytes (8: nowhere)
static inline u32 stop(u64 bytes) {
    u64 flipped = bytes ^ 0x3030303030303030ull, mask = ((flipped + 0x7676767676767676ull) | flipped) & 0x8080808080808080ull;
    return mask ? __builtin_ctzll(mask) >> 3 : 8;
}

static inline bool plain_number(const u8 *p, u32 n) { return n - 1 < 5 && (n == 1 || p[0] != '0'); }

// Box and action records are few; flow records may be many.
static inline const u8 *fast_flow(const u8 *text, Model &model) {
    u32 word = load4(text);
    bool both = word == 0x68746F62;  // "both"
    if ((word != 0x776F6C66 && !both) || text[4] != '\t') return nullptr;
    text += 5;
    u32 i, j;
    stops(text, i, j);
    u32 n = j - i - 1;
    if (j > 11 || text[i] != '\t' || text[j] != '\n' || !plain_number(text, i) || !plain_number(text + i + 1, n)) return nullptr;
    u32 x = digits(load8(text), i), y = digits(load8(text + i + 1), n);
    if (x > 65535 || y > 65535) return nullptr;
    u32 v = position_of[x], u = position_of[y];
    if (!v || !u) return nullptr;
    model.arrow[v - 1] |= 1u << (u - 1);
    if (both) model.arrow[u - 1] |= 1u << (v - 1);
    return text + j + 1;
}

// classes of one box as dense bytes
static void make_dense(const u16 *wide, u8 *out, u32 n) {
    u16 key[256];
    u8 value[256];
    bool used[256] = {};
    u32 fresh = 0;
    for (u32 s = 0; s < n; s++) {
        u32 class_of_state = wide[s], slot = (class_of_state * 0x9E3779B1u) >> 24;
        while (used[slot] && key[slot] != class_of_state) slot = (slot + 1) & 255;
        if (!used[slot]) used[slot] = true, key[slot] = class_of_state, value[slot] = fresh++;
        out[s] = value[slot];
    }
}

static u32 view_prefix(u8 *prefix, u32 id) {
    u8 digit[8];
    u32 n = 0, at = 5;
    memcpy(prefix, "view\t", 5);
    do digit[n++] = '0' + id % 10; while (id /= 10);
    while (n) prefix[at++] = digit[--n];
    prefix[at++] = '\t';
    return at;
}

static bool parse_lines(const u8 *text, const u8 *end, Model &model, Refusal &refusal) {
    u32 line = 1;
    Line record;
#define REFUSE(n) do { refusal.number = (n); refusal.line = line; return false; } while (0)
#define TAKE(allowed) do { if (u32 refused = take(text, end, (allowed), record)) REFUSE(refused); text = record.after; } while (0)
    TAKE(1 << SHEET);
    model.states = record.value[0], model.actions = record.value[1], model.boxes = record.value[2], model.start = record.value[3];
    if (model.states - 1 >= MOST_STATES || model.actions - 1 >= MOST_ACTIONS || model.boxes - 1 >= MOST_BOXES) REFUSE(5);
    if (model.start >= model.states) REFUSE(6);
    const u32 states = model.states, actions = model.actions, boxes = model.boxes;

    for (u32 position = 0; position < boxes; position++) {
        line++;
        TAKE(1 << BOX);
        if (position_of[record.value[0]]) REFUSE(7);
        if (record.label_length - 1 >= ZARPALUME_LABEL_BYTES) REFUSE(9);
        for (u32 i = 0; i < record.label_length; i++)
            if ((u8)(record.label[i] - 0x20) > 0x5E) REFUSE(9);
        model.id[position] = record.value[0];
        position_of[record.value[0]] = position + 1;
        model.arrow[position] = 1u << position;
    }
    for (u32 a = 0; a < actions; a++) {
        line++;
        TAKE(1 << ACT);
        if (!position_of[record.value[0]]) REFUSE(8);
        model.owner[a] = position_of[record.value[0]] - 1;
    }

    const u32 go_first = line + 1;
    for (u32 s = 0; s < states; s++) {
        const u32 state_length = state_text_length[s];
        const u64 head = 0x096F67ull | (u64)state_text[s] << 24;  // "go\t" and the state
        const u64 head_mask = (1ull << (8 * (3 + state_length))) - 1;
        u8 *next = model.next + s * actions;
        u16 *out = model.out + s * actions;
        for (u32 a = 0; a < actions; a++) {
            const u32 action_length = state_text_length[a];
            const u8 *rest = text + 3 + state_length;
            bool good = ((load8(text) ^ head) & head_mask) == 0;
            good &= ((load4(rest) ^ state_text[a]) & ((1u << (8 * action_length)) - 1)) == 0;
            rest += action_length;
            u32 i, j;
            stops(rest, i, j);
            u32 n = j - i - 1;
            good &= (j <= 11) & (i - 1 < 5) & (n - 1 < 5);
            if (__builtin_expect(good, 1)) {
                u32 x = digits(load8(rest), i), y = digits(load8(rest + i + 1), n);
                good = (rest[i] == '\t') & (rest[j] == '\n') & ((i == 1) | (rest[0] != '0')) &
                       ((n == 1) | (rest[i + 1] != '0')) & (x < states) & (y <= 65535);
                if (__builtin_expect(good, 1)) {
                    next[a] = x;
                    model.by_action[a][s] = x;
                    out[a] = y;
                    text = rest + j + 1;
                    continue;
                }
            }
            line = go_first + s * actions + a;
            TAKE(1 << GO);
            REFUSE(6);  // well written, so it is the state, the action or the next state
        }
    }

    line = go_first + states * actions - 1;
    for (;;) {
        line++;
        if (const u8 *rest = fast_flow(text, model)) { text = rest; continue; }
        const u8 *before = text;
        TAKE(1 << FLOW | 1 << BOTH | 1 << VIEW);
        if (record.word == VIEW) { text = before; break; }
        REFUSE(8);
    }

    const u32 view_first = line;
    for (u32 position = 0; position < boxes; position++) {
        u8 prefix[32] = {}, mask[16];
        const u32 prefix_length = view_prefix(prefix, model.id[position]);
        for (u32 i = 0; i < 16; i++) mask[i] = i < prefix_length ? 0xFF : 0;
        const u64 wanted_low = load8(prefix), wanted_high = load8(prefix + 8), mask_low = load8(mask), mask_high = load8(mask + 8);
        u16 wide[MOST_STATES];
        u32 seen = 0;
        for (u32 s = 0; s < states; s++) {
            const u32 state_length = state_text_length[s];
            const u8 *rest = text + prefix_length;
            bool good = (((load8(text) ^ wanted_low) & mask_low) | ((load8(text + 8) ^ wanted_high) & mask_high)) == 0;
            good &= ((load4(rest) ^ state_text[s]) & (u32)((1ull << (8 * state_length)) - 1)) == 0;
            rest += state_length;
            const u64 bytes = load8(rest);
            const u32 n = stop(bytes);
            good &= n - 1 < 5;
            if (__builtin_expect(good, 1)) {
                u32 class_of_state = digits(bytes, n);
                good = (rest[n] == '\n') & ((n == 1) | (rest[0] != '0')) & (class_of_state <= 65535);
                if (__builtin_expect(good, 1)) {
                    wide[s] = class_of_state;
                    seen |= class_of_state;
                    text = rest + n + 1;
                    continue;
                }
            }
            line = view_first + position * states + s;
            TAKE(1 << VIEW);
            REFUSE(record.value[0] != model.id[position] ? 8 : 6);
        }
        if (seen < MOST_STATES) for (u32 s = 0; s < states; s++) model.view[position][s] = wide[s];
        else make_dense(wide, model.view[position], states);
        u8 *column = (u8 *)model.row + position;
        for (u32 s = 0; s < states; s++) column[MOST_BOXES * s] = model.view[position][s];
    }
    line = view_first + boxes * states;
    if (text != end) REFUSE(2);
    return true;
#undef TAKE
#undef REFUSE
}

static bool parse(const u8 *sheet, size_t length, Model &model, Refusal &refusal) {
    if (length < 1 || length > ZARPALUME_SHEET_BYTES || sheet[length - 1] != '\n') {
        refusal = {1, 0};
        return false;
    }
    memcpy(padded, sheet, length);
    memset(padded + length, 0, 64);
    model.boxes = 0;
    for (auto &i : model.id) i = 0;
    bool good = parse_lines(padded, padded + length, model, refusal);
    for (auto i : model.id) position_of[i] = 0;  // ids not yet given are 0, which does no harm
    return good;
}

// ------------------------------------------------------------------ the judge

enum Condition { ACCEPTED, OUTPUT, RESPECT, STEP };
struct Place { u32 condition, box, action, s, t; };

static Boxes all_of(u32 boxes) { return (Boxes)((1ull << boxes) - 1); }

// a byte of ones for every box
static Row row_of(Boxes bits) {
    Row row = {};
    for (u32 u = 0; u < MOST_BOXES; u++) row[u] = bits >> u & 1 ? 0xFF : 0;
    return row;
}
static Boxes bits_of(Row row) {
    Boxes bits = 0;
    for (u32 u = 0; u < MOST_BOXES; u++) bits |= (Boxes)(row[u] != 0) << u;
    return bits;
}

// given for each state the lowest state it must agree with, the first disagreeing pair: a group that
// disagrees anywhere disagrees with its lowest state, so s is the lowest of those
template <class F> static void first_pair(const u8 *low, u32 states, F differs, Place &place) {
    place.s = MOST_STATES;
    for (u32 t = 0; t < states; t++)
        if (low[t] != t && low[t] < place.s && differs(low[t], t)) place.s = low[t], place.t = t;
}

static Place judge(const Model &model) {
    const u32 states = model.states, actions = model.actions, boxes = model.boxes;
    static u8 low[MOST_BOXES][MOST_STATES];  // the lowest state alike to s
    bool single[MOST_BOXES];  // no two states alike
    u32 pair_count[MOST_BOXES];
    for (u32 u = 0; u < boxes; u++) {
        u8 first[MOST_STATES], many[MOST_STATES];
        memset(first, 0xFF, sizeof first);
        memset(many, 0, sizeof many);
        u32 pairs = 0;
        for (u32 s = 0; s < states; s++) {
            u32 c = model.view[u][s];
            u32 from_w = first[c] == 0xFF ? s : first[c];
            first[c] = from_w;
            low[u][s] = from_w;
            pairs += many[c]++;
        }
        pair_count[u] = pairs;
        single[u] = pairs == 0;
    }

    // output
    {
        const u8 *lows[MOST_ACTIONS];
        u32 acting[MOST_ACTIONS], n = 0;
        for (u32 a = 0; a < actions; a++)
            if (!single[model.owner[a]]) acting[n] = a, lows[n++] = low[model.owner[a]];
        u32 bad = 0;
        for (u32 i = 0; i < n; i++) {
            const u16 *outputs_of = model.out + acting[i];
            const u8 *lowest = lows[i];
            for (u32 s = 0; s < states; s++) bad |= outputs_of[s * actions] ^ outputs_of[lowest[s] * actions];
            if (bad) {
                u32 a = acting[i];
                Place place = {OUTPUT, model.owner[a], a, 0, 0};
                first_pair(lowest, states, [&](u32 s, u32 t) { return model.out[s * actions + a] != model.out[t * actions + a]; }, place);
                return place;
            }
        }
    }

    // respect
    const Boxes all = all_of(boxes);
    {
        u32 changed[MOST_ACTIONS], bad = 0;
        for (u32 a = 0; a < actions; a++) {
            const u8 *to = model.by_action[a];
            Row x = {};
            for (u32 s = 0; s < states; s++) x |= model.row[s] ^ model.row[to[s]];
            changed[a] = bits_of(x) & all & ~model.arrow[model.owner[a]];
            bad |= changed[a];
        }
        if (bad) {
            u32 u = __builtin_ctz(bad), a = 0, s = 0;
            while (!(changed[a] >> u & 1)) a++;
            while (model.view[u][s] == model.view[u][model.next[s * actions + a]]) s++;
            return {RESPECT, u, a, s, 0};
        }
    }

    // step; where an action's box does not interfere with u, respect has settled it
    u32 broken[MOST_ACTIONS] = {};  // boxes broken at the action
    Boxes left[MOST_BOXES];  // boxes u, by the action's box, still to be looked at one by one
    Boxes coarse = 0;  // boxes with two states alike
    for (u32 u = 0; u < boxes; u++) coarse |= (u32)!single[u] << u;
    for (u32 w = 0; w < boxes; w++) left[w] = single[w] ? 0 : model.arrow[w] & coarse;
    for (u32 w = 0; w < boxes; w++) {
        if (!left[w] || pair_count[w] > states * (u32)__builtin_popcount(left[w]) / 3) continue;
        // few pairs alike to w: all boxes at once, pair by pair
        u8 pair_s[MOST_STATES * MOST_BOXES], pair_t[MOST_STATES * MOST_BOXES];
        Row mask[MOST_STATES * MOST_BOXES];
        const Row wanted = row_of(left[w]);
        u32 n = 0;
        u8 last[MOST_STATES], before[MOST_STATES];
        memset(last, 0xFF, sizeof last);
        for (u32 t = 0; t < states; t++) {
            u32 c = model.view[w][t];
            before[t] = last[c];
            last[c] = t;
            for (u32 s = before[t]; s != 0xFF; s = before[s])
                pair_s[n] = s, pair_t[n] = t, mask[n++] = (Row)(model.row[s] == model.row[t]) & wanted;
        }
        for (u32 a = 0; a < actions; a++) {
            if (model.owner[a] != w) continue;
            const u8 *to = model.by_action[a];
            Row bad = {};
            for (u32 i = 0; i < n; i++) bad |= mask[i] & (model.row[to[pair_s[i]]] ^ model.row[to[pair_t[i]]]);
            broken[a] = bits_of(bad);
        }
        left[w] = 0;
    }
    static u8 lowest_of[MOST_STATES * MOST_STATES];
    for (u32 u = 0; u < boxes; u++) {
        u8 from[MOST_BOXES][MOST_STATES], to[MOST_BOXES][MOST_STATES];  // states and the lowest alike to both boxes
        u32 count[MOST_BOXES];
        u32 ready = 0;
        const u8 *view_u = model.view[u], *low_u = low[u];
        for (u32 a = 0; a < actions; a++) {
            u32 w = model.owner[a];
            bool bad = broken[a] >> u & 1;
            if (!bad && (left[w] >> u & 1)) {
                if (!(ready >> w & 1)) {
                    ready |= 1u << w;
                    const u8 *low_w = low[w];
                    u32 n = 0;
                    for (u32 s = 0; s < states; s++) {
                        // an entry left over from before is used only if it names a lower state alike to both
                        u8 &entry = lowest_of[low_u[s] * MOST_STATES + low_w[s]];
                        u32 t = entry;
                        if (t < s && low_u[t] == low_u[s] && low_w[t] == low_w[s]) from[w][n] = s, to[w][n++] = t;
                        else entry = s;
                    }
                    count[w] = n;
                }
                const u8 *next_of = model.by_action[a], *from_w = from[w], *to_w = to[w];
                u32 diff = 0;
                for (u32 i = 0; i < count[w]; i++) diff |= view_u[next_of[from_w[i]]] ^ view_u[next_of[to_w[i]]];
                bad = diff != 0;
            }
            if (bad) {
                u8 both[MOST_STATES];
                for (u32 t = 0; t < states; t++) {
                    both[t] = t;
                    for (u32 s = 0; s < t; s++)
                        if (low_u[s] == low_u[t] && low[w][s] == low[w][t]) { both[t] = s; break; }
                }
                Place place = {STEP, u, a, 0, 0};
                first_pair(both, states, [&](u32 s, u32 t) { return view_u[model.next[s * actions + a]] != view_u[model.next[t * actions + a]]; }, place);
                return place;
            }
        }
    }
    return {ACCEPTED, 0, 0, 0, 0};
}

// ------------------------------------------------------------------ sameness

struct Need {
    Boxes arrow[MOST_BOXES];
    u8 depth[MOST_BOXES];
    u32 reach;
};

static Set before[MOST_ACTIONS][MOST_STATES];  // reachable states that the action takes to t
static Set by_now[MOST_STATES];  // the fresh blocks as the round began
static Row same_row[MOST_STATES];  // class of the state for every box

static Set reachable(const Model &model, u8 *order, u32 &count) {
    Set seen = {0, 0};
    seen.add(model.start);
    order[0] = model.start;
    count = 1;
    for (u32 i = 0; i < count; i++) {
        const u8 *n = model.next + order[i] * model.actions;
        for (u32 a = 0; a < model.actions; a++)
            if (!seen.has(n[a])) seen.add(n[a]), order[count++] = n[a];
    }
    return seen;
}

struct Blocks {
    Set set[MOST_STATES];
    u8 of[MOST_STATES];  // state -> block
    u8 size[MOST_STATES];
    u32 count;
    void add(u32 b, u32 s) { set[b].add(s), of[s] = b, size[b]++; }
};

static inline u64 mix(u64 h, u64 x) {
    h = (h ^ x) * 0x9E3779B97F4A7C15ull;
    return h ^ (h >> 29);
}

// splits the states of one block by equality of rows of width bytes (a multiple of 8); the first part
// keeps the block's number, the others get new ones
static void split_by_rows(Blocks &blocks, u32 b, const u8 (*rows)[64], u32 width) {
    Set rest = blocks.set[b];
    if (blocks.size[b] <= 4) {   // few: each against the lowest of every part so far
        u8 part[4] = {(u8)b}, low[4] = {(u8)rest.lowest()}, n = 1;
        rest.drop_lowest();
        for (; !rest.empty(); rest.drop_lowest()) {
            u32 s = rest.lowest(), i = 0;
            while (i < n && memcmp(rows[s], rows[low[i]], width)) i++;
            if (i == 0) continue;
            if (i == n) {
                low[n] = s, part[n++] = blocks.count;
                blocks.set[blocks.count] = {0, 0}, blocks.size[blocks.count++] = 0;
            }
            blocks.set[b].remove(s), blocks.size[b]--;
            blocks.add(part[i], s);
        }
        return;
    }
    u8 table[256];  // state + 1
    memset(table, 0, sizeof table);
    blocks.set[b] = {0, 0};
    blocks.size[b] = 0;
    bool first = true;
    for (; !rest.empty(); rest.drop_lowest()) {
        u32 s = rest.lowest();
        u64 h = 0;
        for (u32 i = 0; i < width; i += 8) h = mix(h, load8(rows[s] + i));
        for (u32 slot = h >> 56;; slot = (slot + 1) & 255) {
            if (!table[slot]) {
                table[slot] = s + 1;
                u32 to = first ? b : blocks.count++;
                if (!first) blocks.set[to] = {0, 0}, blocks.size[to] = 0;
                first = false;
                blocks.add(to, s);
                break;
            }
            u32 t = table[slot] - 1;
            u64 d = 0;
            for (u32 i = 0; i < width; i += 8) d |= load8(rows[s] + i) ^ load8(rows[t] + i);
            if (!d) {
                blocks.add(blocks.of[t], s);
                break;
            }
        }
    }
}

static u32 refine(const Model &model, u32 u, Set reach, const u8 *order, u32 reached, Blocks &blocks) {
    const u32 actions = model.actions;
    static u8 rows[MOST_STATES][64];
    blocks.count = 1;
    blocks.set[0] = reach;
    blocks.size[0] = reached;
    memset(blocks.of, 0, sizeof blocks.of);

    // what the empty run shows
    u32 mine[MOST_ACTIONS], k = 0;
    for (u32 a = 0; a < actions; a++)
        if (model.owner[a] == u) mine[k++] = a;
    if (!k) return 0;
    const u32 width0 = (2 * k + 7) & ~7u;
    for (u32 i = 0; i < reached; i++) {
        u32 s = order[i];
        memset(rows[s], 0, width0);
        for (u32 j = 0; j < k; j++) memcpy(rows[s] + 2 * j, model.out + s * actions + mine[j], 2);
    }
    split_by_rows(blocks, 0, rows, width0);

    u8 open[MOST_STATES], open_count = 0;  // blocks that can still be split
    u8 parent[MOST_STATES];  // the block a new block came from
    u8 fresh[MOST_STATES];  // what to split by: of the parts of a block, all but the largest
    u32 old = 0;
    if (blocks.size[0] > 1) open[open_count++] = 0;
    for (u32 b = 1; b < blocks.count; b++) {
        parent[b] = 0;
        if (blocks.size[b] > 1) open[open_count++] = b;
    }
    const u32 width = (actions + 7) & ~7u;
    for (u32 depth = 0;; depth++) {
        if (blocks.count == reached || blocks.count == old) return blocks.count == old ? depth - 1 : depth;
        // blocks from max(old, 1) on are new; choose the fresh ones
        u32 fresh_count = 0, load = 0, weight = 0;
        {
            u8 largest[MOST_STATES];
            const u32 from = old ? old : 1;
            for (u32 b = from; b < blocks.count; b++) largest[parent[b]] = parent[b];
            for (u32 b = from; b < blocks.count; b++)
                if (blocks.size[b] > blocks.size[largest[parent[b]]]) largest[parent[b]] = b;
            for (u32 b = from; b < blocks.count; b++) {
                // a parent that is not the largest is fresh itself; it takes the largest one's turn
                u32 f = largest[parent[b]] == b ? parent[b] : b;
                fresh[fresh_count++] = f;
                load += blocks.size[f];
            }
        }
        for (u32 i = 0; i < open_count; i++) weight += blocks.size[open[i]];
        old = blocks.count;
        if (load + 2 * fresh_count * open_count < weight) {
            for (u32 i = 0; i < fresh_count; i++) by_now[i] = blocks.set[fresh[i]];
            for (u32 i = 0; i < fresh_count && open_count; i++) {
                u8 members[MOST_STATES];
                u32 n = 0;
                for (Set b = by_now[i]; !b.empty(); b.drop_lowest()) members[n++] = b.lowest();
                for (u32 a = 0; a < actions && open_count; a++) {
                    Set x = before[a][members[0]];
                    for (u32 j = 1; j < n; j++) x = x | before[a][members[j]];
                    if (x.empty()) continue;
                    u32 stop = open_count;
                    for (u32 j = 0; j < stop;) {
                        u32 b = open[j];
                        Set in = blocks.set[b] & x, out = minus(blocks.set[b], x);
                        if (in.empty() || out.empty()) { j++; continue; }
                        u32 c = blocks.count++;
                        blocks.set[b] = out, blocks.set[c] = in;
                        parent[c] = b < old ? b : parent[b];
                        bool open_b = !out.single(), open_c = !in.single();
                        if (open_c) {
                            if (open_b) open[open_count++] = c, j++;
                            else open[j++] = c;
                        } else if (open_b) j++;
                        else {
                            // neither: the last one looked at takes its place
                            open[j] = open[--stop];
                            open[stop] = open[--open_count];
                        }
                    }
                }
            }
            for (u32 c = old; c < blocks.count; c++) {
                u32 n = 0;
                for (Set x = blocks.set[c]; !x.empty(); x.drop_lowest()) blocks.of[x.lowest()] = c, n++;
                blocks.size[c] = n;
                // the parent's size is settled below
            }
            for (u32 c = old; c < blocks.count; c++) blocks.size[parent[c]] -= blocks.size[c];
        } else {
            for (u32 i = 0; i < open_count; i++)
                for (Set x = blocks.set[open[i]]; !x.empty(); x.drop_lowest()) {
                    u32 s = x.lowest();
                    const u8 *n = model.next + s * actions;
                    u8 *row = rows[s];
                    memset(row + (width - 8), 0, 8);
                    for (u32 a = 0; a < actions; a++) row[a] = blocks.of[n[a]];
                }
            u32 stop = open_count;
            for (u32 i = 0; i < stop; i++) {
                u32 from = blocks.count;
                split_by_rows(blocks, open[i], rows, width);
                for (u32 c = from; c < blocks.count; c++) {
                    parent[c] = open[i];
                    if (blocks.size[c] > 1) open[open_count++] = c;
                }
            }
            u32 kept = 0;
            for (u32 i = 0; i < open_count; i++)
                if (blocks.size[open[i]] > 1) open[kept++] = open[i];
            open_count = kept;
        }
    }
}

static void needed(const Model &model, Need &need) {
    const u32 actions = model.actions, boxes = model.boxes;
    static u8 order[MOST_STATES];
    u32 reached;
    Set reach = reachable(model, order, reached);
    need.reach = reached;
    for (u32 a = 0; a < actions; a++) {
        for (u32 s = 0; s < model.states; s++) before[a][s] = {0, 0};
        for (u32 i = 0; i < reached; i++) before[a][model.by_action[a][order[i]]].add(order[i]);
    }
    static Blocks blocks;
    for (u32 u = 0; u < boxes; u++) {
        need.depth[u] = refine(model, u, reach, order, reached, blocks);
        for (u32 i = 0; i < reached; i++) ((u8 *)&same_row[order[i]])[u] = blocks.of[order[i]];
        need.arrow[u] = 0;
    }
    for (u32 a = 0; a < actions; a++) {
        const u8 *to = model.by_action[a];
        Row x = {};
        for (u32 i = 0; i < reached; i++) x |= same_row[order[i]] ^ same_row[to[order[i]]];
        need.arrow[model.owner[a]] |= bits_of(x) & all_of(boxes) & ~(1u << model.owner[a]);
    }
}

// ------------------------------------------------------------------ the verdict

static u8 *put(u8 *end, const char *text) {
    while (*text) *end++ = *text++;
    return end;
}
static u8 *put(u8 *end, u32 value) {
    u8 digit[10];
    int n = 0;
    do digit[n++] = '0' + value % 10; while (value /= 10);
    while (n) *end++ = digit[--n];
    return end;
}

static size_t write_verdict(const u8 *sheet, size_t length, u8 *out) {
    u8 *end = out;
    Refusal refusal;
    bool good = parse(sheet, length, the_model, refusal);
    if (!good) {
        end = put(end, "refused\t"), end = put(end, refusal.number), *end++ = '\t', end = put(end, refusal.line), *end++ = '\n';
        return end - out;
    }
    Place place = judge(the_model);
    if (place.condition == ACCEPTED) end = put(end, "views\taccepted\n");
    else {
        end = put(end, place.condition == OUTPUT ? "views\tbroken\toutput\t" : place.condition == RESPECT
                                          ? "views\tbroken\trespect\t" : "views\tbroken\tstep\t");
        end = put(end, the_model.id[place.box]), *end++ = '\t', end = put(end, place.action), *end++ = '\t', end = put(end, place.s), *end++ = '\t';
        end = place.condition == RESPECT ? put(end, "-") : put(end, place.t);
        *end++ = '\n';
    }
    Need need;
    needed(the_model, need);
    u8 id_text[MOST_BOXES][8];
    u8 id_length[MOST_BOXES];
    for (u32 u = 0; u < the_model.boxes; u++) id_length[u] = put(id_text[u], the_model.id[u]) - id_text[u];
    for (u32 v = 0; v < the_model.boxes; v++)
        for (u32 x = need.arrow[v]; x; x &= x - 1) {
            u32 u = __builtin_ctz(x);
            end = put(end, "need\t");
            memcpy(end, id_text[v], 8), end += id_length[v], *end++ = '\t';
            memcpy(end, id_text[u], 8), end += id_length[u], *end++ = '\n';
        }
    for (u32 u = 0; u < the_model.boxes; u++)
        end = put(end, "depth\t"), end = put(end, the_model.id[u]), *end++ = '\t', end = put(end, need.depth[u]), *end++ = '\n';
    end = put(end, "reach\t"), end = put(end, need.reach), *end++ = '\n';
    return end - out;
}

static void prepare() {
    for (u32 s = 0; s < MOST_STATES; s++) {
        char t[8] = {};
        state_text_length[s] = snprintf(t, sizeof t, "%u\t", s);
        memcpy(&state_text[s], t, 4);
    }
}

extern "C" size_t peer_verdict(const u8 *sheet, size_t length, u8 *out, size_t out_length) {
    if (out_length != ZARPALUME_VERDICT_BYTES) return 0;
    if (!state_text_length[0]) prepare();
    const size_t written = write_verdict(sheet, length, out);
    memset(out + written, 0, ZARPALUME_VERDICT_BYTES - written);
    return written;
}
