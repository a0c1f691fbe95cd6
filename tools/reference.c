/*
 * The yardstick of `make speed`: the judging of `bench`, written by hand in plain C, and not proved.
 * It reads a bench file on standard input and prints the lines that `bench` prints. A word of the cable is taken at a
 * time, a row is judged in plain loops once it is whole, and one table of 1,024 entries steps the CRC.
 * It has no headers, because it is compiled by the kit's clang, which brings none.
 */

typedef unsigned char u8;
typedef unsigned short u16;
typedef unsigned int u32;
typedef unsigned long u64;
typedef _Bool bool;
enum { false, true };

/* What comes a few times a row stays out of the loop over the words. */
#define RARE __attribute__((noinline))

long read(int file, void *bytes, u64 most);
long write(int file, const void *bytes, u64 count);

/* Refusal numbers. */
enum { DONE = 0, BAD_WORD = 3, BAD_RASTER = 4, BAD_FILE = 9 };

enum { WORD_BITS = 10, WORD_MOST = 0x3ff, PAIR_MOST = 0xfffff };

/* ---- The rasters and what a line of one has ---- */

struct raster {
    u32 total;  /* pairs of a row */
    u32 active; /* pairs of its picture */
    u32 rows;
    bool fields;
};

static const struct raster RASTERS[12] = {
    {2640, 1920, 1125, true}, /* 0 stands for 7 */
    {1650, 1280, 750, false},
    {1980, 1280, 750, false},
    {3300, 1280, 750, false},
    {3960, 1280, 750, false},
    {4125, 1280, 750, false},
    {2200, 1920, 1125, true},
    {2640, 1920, 1125, true},
    {2750, 1920, 1125, true},
    {2200, 1920, 1125, false},
    {2640, 1920, 1125, false},
    {2750, 1920, 1125, false},
};

enum { LONGEST_ROW = 4125 };

/* Places in a row: EAV at 0, then these; SAV ends where the active words begin. */
enum { CODE_WORDS = 4, LINE = 4, CRC = 6, BLANKING = 8 };

static bool is_blank_line(const struct raster *raster, u32 line)
{
    if (raster->rows == 750)
        return line < 26 || line > 745;
    if (!raster->fields)
        return line < 42 || line > 1121;
    return line < 21 || (line > 560 && line < 584) || line > 1123;
}

static bool is_second_field(const struct raster *raster, u32 line)
{
    return raster->fields && line >= 564;
}

static u32 timing_code(u32 f, u32 v, u32 h)
{
    return 1u << 9 | f << 8 | v << 7 | h << 6 | (v ^ h) << 5 | (f ^ h) << 4 | (f ^ v) << 3 | (f ^ v ^ h) << 2;
}

static bool is_eav_code(u32 word)
{
    return word == timing_code(word >> 8 & 1, word >> 7 & 1, 1);
}

/* The nine low bits, and the inverse of bit 8 above them. */
static u32 with_top_bit(u32 word)
{
    word &= 0x1ff;
    return word | (~word << 1 & 0x200);
}

static u32 low_line_word(u32 line)
{
    return with_top_bit(line << 2);
}

static u32 high_line_word(u32 line)
{
    return with_top_bit(line >> 7 << 2);
}

/* The line that the two words are exactly, or 0. */
static u32 line_of(const struct raster *raster, u32 low, u32 high)
{
    u32 line = (low >> 2 & 0x7f) | (high >> 2 & 0xf) << 7;
    bool exact = low == low_line_word(line) && high == high_line_word(line);
    return exact && line <= raster->rows ? line : 0;
}

/* ---- The CRC ---- */

static u32 crc_steps[WORD_MOST + 1];

static void make_crc_steps(void)
{
    for (u32 word = 0; word <= WORD_MOST; word++) {
        u32 crc = word;
        for (int bit = 0; bit < WORD_BITS; bit++)
            crc = crc & 1 ? crc >> 1 ^ 0x23000 : crc >> 1;
        crc_steps[word] = crc;
    }
}

static inline u32 crc_step(u32 crc, u32 word)
{
    return crc >> WORD_BITS ^ crc_steps[(crc ^ word) & WORD_MOST];
}

struct carry {
    u32 y, c;
};

/* Both channels at once: the steps of one need not wait for those of the other. */
static struct carry crc_of(struct carry crc, const u16 *y, const u16 *c, u32 count)
{
    for (u32 i = 0; i < count; i++) {
        crc.y = crc_step(crc.y, y[i]);
        crc.c = crc_step(crc.c, c[i]);
    }
    return crc;
}

static bool is_crc_right(u32 crc, const u16 *words)
{
    return words[CRC] == with_top_bit(crc) && words[CRC + 1] == with_top_bit(crc >> 9);
}

/* ---- The flags of a row ---- */

enum {
    FLAG_EAV = 1 << 0,
    FLAG_SAV = 1 << 1,
    FLAG_LINE = 1 << 2,
    FLAG_Y_CRC = 1 << 3,
    FLAG_C_CRC = 1 << 4,
    FLAG_Y_CHECKSUM = 1 << 5,
    FLAG_C_CHECKSUM = 1 << 6,
    FLAG_CUT = 1 << 7,
    FLAG_RESERVED = 1 << 8
};

static bool is_code(const u16 *words, u32 code)
{
    return words[0] == 0x3ff && words[1] == 0 && words[2] == 0 && words[3] == code;
}

static u32 timing_flags(const struct raster *raster, u32 line, const u16 *words)
{
    u32 f = is_second_field(raster, line);
    u32 v = is_blank_line(raster, line);
    const u16 *sav = words + raster->total - raster->active - CODE_WORDS;
    u32 flags = 0;
    if (!is_code(words, timing_code(f, v, 1)))
        flags |= FLAG_EAV;
    if (!is_code(sav, timing_code(f, v, 0)))
        flags |= FLAG_SAV;
    if (words[LINE] != low_line_word(line) || words[LINE + 1] != high_line_word(line))
        flags |= FLAG_LINE;
    return flags;
}

/* Of the words from DID to the last user word. */
static u32 checksum(const u16 *words, u32 count)
{
    u32 sum = 0;
    for (u32 i = 0; i < count; i++)
        sum += words[i];
    return with_top_bit(sum);
}

/* The flags of the packets among these words, where the flag of a wrong checksum is the channel's. */
static u32 packet_flags(const u16 *words, u32 count, u32 flag_checksum)
{
    u32 flags = 0;
    u32 at = 0;
    while (at + 3 <= count) {
        if (words[at] != 0 || words[at + 1] != 0x3ff || words[at + 2] != 0x3ff) {
            at++;
            continue;
        }
        const u16 *header = words + at + 3;
        u32 room = count - at - 3;
        u32 covered = room < 3 ? 0 : 3 + (header[2] & 0xff);
        if (room < 3 || room < covered + 1) {
            flags |= FLAG_CUT;
            at += 3;
            continue;
        }
        if (header[covered] != checksum(header, covered))
            flags |= flag_checksum;
        at += 3 + covered + 1;
    }
    return flags;
}

/* 000 to 003 and 3FC to 3FF. */
static bool has_reserved(const u16 *words, u32 count)
{
    u32 found = 0;
    for (u32 i = 0; i < count; i++)
        found |= (u16)(words[i] - 4) >= 0x3f8;
    return found;
}

/* All flags of a channel but that of its CRC. */
static u32 channel_flags(const struct raster *raster, u32 line, const u16 *words, u32 flag_checksum)
{
    u32 active = raster->total - raster->active;
    u32 flags = timing_flags(raster, line, words);
    flags |= packet_flags(words + BLANKING, active - CODE_WORDS - BLANKING, flag_checksum);
    if (is_blank_line(raster, line))
        flags |= packet_flags(words + active, raster->active, flag_checksum);
    else if (has_reserved(words + active, raster->active))
        flags |= FLAG_RESERVED;
    return flags;
}

/* ---- A module's session ---- */

static const u64 SYNC = PAIR_MOST; /* sixty bits, the oldest lowest: twenty ones, then forty zeros */

struct session {
    const struct raster *raster;
    u32 cable;        /* the last twenty bits of the cable, the oldest lowest */
    u64 last;         /* the last sixty-four unscrambled bits, the oldest lowest */
    bool seen;        /* a sync has come */
    u32 words_to_xyz; /* how many words on the pair after a sync ends; 0 where none is awaited */
    u32 xyz_after;    /* how many bits of that word come after it */
    bool open;        /* a row is open */
    bool half;        /* the last word has begun a pair of the open row */
    u32 after;        /* how many bits of a word come after the end of a pair of the open row */
    u32 pairs;        /* how many pairs of the open row have come */
    u32 line;         /* expected of the open row; 0 where none is known */
    bool has_carry;
    struct carry carry;
    /* A job has too few bits for these to overflow. */
    u32 rows, faults;
};

/* The open row, and the four pairs after it that must be the next one's EAV. */
static u16 row_y[LONGEST_ROW + CODE_WORDS];
static u16 row_c[LONGEST_ROW + CODE_WORDS];

static void drop_row(struct session *session)
{
    session->faults++;
    session->open = false;
    session->line = 0;
    session->has_carry = false;
}

static u32 crc_flags(struct carry carry)
{
    struct carry crc = crc_of(carry, row_y, row_c, CRC);
    u32 flags = 0;
    if (!is_crc_right(crc.y, row_y))
        flags |= FLAG_Y_CRC;
    if (!is_crc_right(crc.c, row_c))
        flags |= FLAG_C_CRC;
    return flags;
}

/* Judges the row that is whole, and expects the next one. */
static void judge_row(struct session *session)
{
    const struct raster *raster = session->raster;
    if (session->line == 0)
        session->line = line_of(raster, row_y[LINE], row_y[LINE + 1]);
    if (session->line == 0) {
        session->faults++;
        return;
    }
    u32 flags = channel_flags(raster, session->line, row_y, FLAG_Y_CHECKSUM);
    flags |= channel_flags(raster, session->line, row_c, FLAG_C_CHECKSUM);
    if (session->has_carry) {
        flags |= crc_flags(session->carry);
        session->rows++;
    }
    if (flags != 0)
        session->faults++;
    u32 active = raster->total - raster->active;
    session->carry = crc_of((struct carry){0, 0}, row_y + active, row_c + active, raster->active);
    session->has_carry = true;
    session->line = session->line == raster->rows ? 1 : session->line + 1;
}

/* C came first. */
static inline void lay_pair(struct session *session, u32 pair)
{
    row_c[session->pairs] = (u16)(pair & WORD_MOST);
    row_y[session->pairs] = (u16)(pair >> WORD_BITS);
    session->pairs++;
}

/* Opens a row at an EAV that has just ended with this pair, so many bits before the end of a word. */
static void open_row(struct session *session, u32 pair, u32 after)
{
    session->open = true;
    session->half = false;
    session->after = after;
    session->pairs = 0;
    lay_pair(session, PAIR_MOST);
    lay_pair(session, 0);
    lay_pair(session, 0);
    lay_pair(session, pair);
}

/* The four pairs after the open row have come, this one the last: where they are an EAV the row is whole. */
RARE static void end_row(struct session *session, u32 pair)
{
    const u16 *y = row_y + session->raster->total;
    const u16 *c = row_c + session->raster->total;
    if (!is_eav_code(y[3]) || !is_code(y, y[3]) || !is_code(c, c[3])) {
        drop_row(session);
        return;
    }
    judge_row(session);
    open_row(session, pair, session->after);
    /* The pair after the sync among them has been taken. */
    session->words_to_xyz = 0;
}

/* The pair that ends so many bits before the end of the last word. */
static inline u32 pair_before(u64 last, u32 after)
{
    return (u32)(last >> (44 - after)) & PAIR_MOST;
}

/* The pair after a sync has ended: an EAV here comes at another distance than the open row's end, and opens a row. */
static void take_xyz(struct session *session, u64 last)
{
    u32 pair = pair_before(last, session->xyz_after);
    if (!is_eav_code(pair >> WORD_BITS))
        return;
    if (session->open)
        drop_row(session);
    open_row(session, pair, session->xyz_after);
}

/* A sync has ended so many bits before the end of the word. */
static void take_sync(struct session *session, u32 after)
{
    session->seen = true;
    session->words_to_xyz = 2;
    session->xyz_after = after;
    bool at_pair_end = !session->half && session->after == after;
    if (session->open && !at_pair_end)
        drop_row(session);
}

/* Of a sync that ends in the next word thirty zeros have come last, and ones before them. */
static inline bool may_sync(u64 before)
{
    return before >> 34 == 0 && before != 0;
}

/* Takes what the last word ends besides a pair of the open row: the pair after a sync, or a sync at one of ten places. */
RARE static void take_sync_word(struct session *session, u64 before, u64 last)
{
    if (session->words_to_xyz != 0 && --session->words_to_xyz == 0)
        take_xyz(session, last);
    if (!may_sync(before))
        return;
    u64 word = last >> 54;
    for (u32 bits = 1; bits <= WORD_BITS; bits++) {
        u64 sixty = (before >> bits | word << (64 - bits)) >> 4;
        if (sixty == SYNC)
            take_sync(session, WORD_BITS - bits);
    }
}

/* Takes the second or the first half of a pair of the open row. */
static inline void take_half_pair(struct session *session, u64 last)
{
    session->half = !session->half;
    if (session->half)
        return;
    u32 pair = pair_before(last, session->after);
    lay_pair(session, pair);
    if (session->pairs == session->raster->total + CODE_WORDS)
        end_row(session, pair);
}

/* The ten newest of twenty bits of the cable, unscrambled; what stands above them is to be shifted out. */
static inline u32 unscrambled(u32 cable)
{
    u32 s = cable ^ cable << 1;
    return (s ^ s << 5 ^ s << 9) >> WORD_BITS;
}

/* Both bytes at once, for the machine has the lowest first too. */
static inline u32 word_at(const u8 *bytes)
{
    u16 word;
    __builtin_memcpy(&word, bytes, sizeof word);
    return word;
}

/* Takes words of two bytes each; false at one above 3FF. */
static bool take_words(struct session *session, const u8 *bytes, u32 count)
{
    u32 cable = session->cable;
    u64 last = session->last;
    for (const u8 *end = bytes + 2 * count; bytes != end; bytes += 2) {
        u32 word = word_at(bytes);
        if (word > WORD_MOST)
            return false;
        cable = cable >> WORD_BITS | word << WORD_BITS;
        u64 before = last;
        last = before >> WORD_BITS | (u64)unscrambled(cable) << 54;
        if (session->open)
            take_half_pair(session, last);
        if (may_sync(before) || session->words_to_xyz != 0)
            take_sync_word(session, before, last);
    }
    session->cable = cable;
    session->last = last;
    return true;
}

/* ---- Output ---- */

enum { TAG_MOST = 32, LINE_MOST = 96, OUTPUT_SIZE = 4096 };

static u8 output[OUTPUT_SIZE];
static u32 output_used;
static bool output_failed;

static void flush_output(void)
{
    u32 written = 0;
    while (written < output_used && !output_failed) {
        long count = write(1, output + written, output_used - written);
        if (count <= 0)
            output_failed = true;
        else
            written += (u32)count;
    }
    output_used = 0;
}

static void print_text(const char *text)
{
    while (*text != 0)
        output[output_used++] = (u8)*text++;
}

static void print_number(u32 number)
{
    char digits[11];
    char *first = digits + 10;
    *first = 0;
    do {
        *--first = (char)('0' + number % 10);
        number /= 10;
    } while (number != 0);
    print_text(first);
}

/* Every line begins here, so that there is room for it. */
static void begin_line(void)
{
    if (OUTPUT_SIZE - output_used < LINE_MOST)
        flush_output();
}

static void print_refusal(u32 refusal)
{
    begin_line();
    print_text("bad file ");
    print_number(refusal);
    print_text("\n");
}

static const char *verdict_of(const struct session *session)
{
    if (!session->seen)
        return " NO SIGNAL\n";
    if (session->faults != 0)
        return " FAIL\n";
    return session->rows < session->raster->rows ? " SHORT\n" : " PASS\n";
}

static void print_job(const char *tag, u32 code, const struct session *session)
{
    begin_line();
    print_text(tag);
    print_text(" raster ");
    print_number(code == 0 ? 7 : code);
    print_text(" rows ");
    print_number(session->rows);
    print_text(" faults ");
    print_number(session->faults);
    print_text(verdict_of(session));
}

/* ---- Input ---- */

enum { BLOCK = 65536 };

static u8 input[BLOCK];
static u32 input_next, input_end;

/* Reads the next block; false at the end of the input, which a read error is too. */
static bool read_block(void)
{
    flush_output();
    long count = read(0, input, BLOCK);
    input_next = 0;
    input_end = count < 0 ? 0 : (u32)count;
    return input_end != 0;
}

/* The next byte, or -1 at the end. */
static int next_byte(void)
{
    if (input_next == input_end && !read_block())
        return -1;
    return input[input_next++];
}

/* So many bytes; false where they are cut short. */
static bool take_bytes(u8 *bytes, u32 count)
{
    for (u32 i = 0; i < count; i++) {
        int byte = next_byte();
        if (byte < 0)
            return false;
        bytes[i] = (u8)byte;
    }
    return true;
}

static bool take_count(u32 *count)
{
    u8 bytes[4];
    if (!take_bytes(bytes, 4))
        return false;
    *count = bytes[0] | (u32)bytes[1] << 8 | (u32)bytes[2] << 16 | (u32)bytes[3] << 24;
    return true;
}

/* ---- The sections of a job: each answers DONE or a refusal ---- */

static u32 take_tag(char tag[TAG_MOST + 1])
{
    u32 count;
    if (!take_count(&count) || count < 1 || count > TAG_MOST)
        return BAD_FILE;
    if (!take_bytes((u8 *)tag, count))
        return BAD_FILE;
    tag[count] = 0;
    for (u32 i = 0; i < count; i++)
        if (tag[i] < 0x21 || tag[i] > 0x7e)
            return BAD_FILE;
    return DONE;
}

static u32 take_options(u32 *code)
{
    u32 count;
    u8 options[2];
    if (!take_count(&count) || count != 2 || !take_bytes(options, 2))
        return BAD_FILE;
    if (options[1] > 1)
        return BAD_FILE;
    if (options[0] > 11)
        return BAD_RASTER;
    *code = options[0];
    return DONE;
}

/* The words that are whole in the block are taken where they lie; one that two blocks share is put together first. */
static u32 take_word_section(struct session *session)
{
    u32 left;
    if (!take_count(&left))
        return BAD_FILE;
    while (left != 0) {
        u32 whole = (input_end - input_next) / 2;
        u32 count = whole < left ? whole : left;
        const u8 *bytes = input + input_next;
        u8 shared[2];
        if (whole != 0) {
            input_next += 2 * count;
        } else {
            count = 1;
            bytes = shared;
            if (!take_bytes(shared, 2))
                return BAD_FILE;
        }
        if (!take_words(session, bytes, count))
            return BAD_WORD;
        left -= count;
    }
    return DONE;
}

static u32 take_job(void)
{
    char tag[TAG_MOST + 1];
    u32 code = 0;
    u32 refusal = take_tag(tag);
    if (refusal == DONE)
        refusal = take_options(&code);
    if (refusal != DONE)
        return refusal;
    struct session session = {.raster = &RASTERS[code]};
    refusal = take_word_section(&session);
    if (refusal == DONE)
        print_job(tag, code, &session);
    return refusal;
}

int main(void)
{
    make_crc_steps();
    u32 refusal = DONE;
    while (refusal == DONE && !output_failed && (input_next != input_end || read_block()))
        refusal = take_job();
    if (refusal != DONE)
        print_refusal(refusal);
    flush_output();
    return 0;
}
