/* What the work of weed costs in plain C: bench/program.sh runs both on the same scripts.
 *
 * Reads lines of volume.create, put and get on standard input and answers them as weed does, over the same files in
 * the current folder and by the same calls of the system: standard input in reads of 64 KiB, files in writes and
 * preads of at most 64 KiB, the size of the data file before each get, an fsync behind each record and each entry, and
 * a write for each reply. It keeps the index of one volume in memory, by id. A line that it doesn't know or can't carry
 * out ends it.
 *
 * Built with TUNED it takes the checksum by the instruction of SSE4.2 and writes two digits at a time, else by tables
 * and digit by digit. */
#define _GNU_SOURCE
#include <endian.h>
#include <err.h>
#include <fcntl.h>
#include <stdint.h>
#include <stdio.h>
#include <stdlib.h>
#include <string.h>
#include <sys/stat.h>
#include <time.h>
#include <unistd.h>
#ifdef TUNED
#include <nmmintrin.h>
#endif

enum {
    PIECE = 65536,
    MAX_LINE = 1 << 23,
    MAX_DATA = 1 << 21,
    UNIT = 8,
    ENTRY = 16,
    /* cookie, id and size in front of the fields of a record, and the data's length in front of the data */
    HEADER = 16,
    DATA_AT = HEADER + 4,
    /* checksum and append time behind the fields, and at most 8 bytes of padding */
    TRAILER = 12,
    MAX_RECORD = DATA_AT + MAX_DATA + 1 + TRAILER + 8,
};

static const char SERVER[] = "s00";

/* ---- numbers */

static void put_32(unsigned char *to, uint32_t number)
{
    number = htobe32(number);
    memcpy(to, &number, 4);
}

static void put_64(unsigned char *to, uint64_t number)
{
    number = htobe64(number);
    memcpy(to, &number, 8);
}

static uint32_t get_32(const unsigned char *from)
{
    uint32_t number;
    memcpy(&number, from, 4);
    return be32toh(number);
}

static uint64_t get_64(const unsigned char *from)
{
    uint64_t number;
    memcpy(&number, from, 8);
    return be64toh(number);
}

/* ---- hexadecimal digits */

static const char DIGITS[] = "0123456789abcdef";
static signed char digit_value[256];
static char digits_of[256][2];

static void make_digits(void)
{
    memset(digit_value, -1, sizeof digit_value);
    for (int i = 0; i < 16; i++)
        digit_value[(unsigned char)DIGITS[i]] = i;
    for (int i = 10; i < 16; i++)
        digit_value[DIGITS[i] - 'a' + 'A'] = i;
    for (int i = 0; i < 256; i++) {
        digits_of[i][0] = DIGITS[i >> 4];
        digits_of[i][1] = DIGITS[i & 15];
    }
}

static void encode(char *to, const unsigned char *bytes, size_t length)
{
    for (size_t i = 0; i < length; i++) {
#ifdef TUNED
        memcpy(to + 2 * i, digits_of[bytes[i]], 2);
#else
        to[2 * i] = DIGITS[bytes[i] >> 4];
        to[2 * i + 1] = DIGITS[bytes[i] & 15];
#endif
    }
}

/* Whether all are digits. */
static int decode(unsigned char *to, const char *digits, size_t length)
{
    int seen = 0;
    for (size_t i = 0; i < length; i++) {
        int high = digit_value[(unsigned char)digits[2 * i]], low = digit_value[(unsigned char)digits[2 * i + 1]];
        seen |= high | low;
        to[i] = (unsigned char)(high << 4 | low);
    }
    return seen >= 0;
}

/* ---- the checksum */

#ifdef TUNED
static void make_sums(void) {}

static uint32_t checksum(const unsigned char *bytes, size_t length)
{
    uint64_t sum = UINT32_MAX;
    for (; length >= 8; bytes += 8, length -= 8) {
        uint64_t word;
        memcpy(&word, bytes, 8);
        sum = _mm_crc32_u64(sum, word);
    }
    for (; length > 0; bytes++, length--)
        sum = _mm_crc32_u8((uint32_t)sum, *bytes);
    return ~(uint32_t)sum;
}
#else
/* sums[n][i] is what follows of byte i behind n bytes of zeros. */
static uint32_t sums[8][256];

static void make_sums(void)
{
    for (uint32_t i = 0; i < 256; i++) {
        uint32_t sum = i;
        for (int bit = 0; bit < 8; bit++)
            sum = sum >> 1 ^ (0x82f63b78 & -(sum & 1));
        sums[0][i] = sum;
    }
    for (int n = 1; n < 8; n++)
        for (int i = 0; i < 256; i++)
            sums[n][i] = sums[n - 1][i] >> 8 ^ sums[0][sums[n - 1][i] & 255];
}

static uint32_t checksum(const unsigned char *bytes, size_t length)
{
    uint32_t sum = UINT32_MAX;
    for (; length >= 8; bytes += 8, length -= 8) {
        uint64_t word;
        memcpy(&word, bytes, 8);
        word = le64toh(word) ^ sum;
        sum = sums[7][word & 255] ^ sums[6][word >> 8 & 255] ^ sums[5][word >> 16 & 255] ^ sums[4][word >> 24 & 255]
            ^ sums[3][word >> 32 & 255] ^ sums[2][word >> 40 & 255] ^ sums[1][word >> 48 & 255] ^ sums[0][word >> 56];
    }
    for (; length > 0; bytes++, length--)
        sum = sum >> 8 ^ sums[0][(sum ^ *bytes) & 255];
    return ~sum;
}
#endif

static uint32_t masked(uint32_t sum)
{
    return (sum >> 15 | sum << 17) + 0xa282ead8;
}

/* ---- the index in memory: a table with open addresses, at most half full */

/* An entry of size 0 stands for none. */
struct entry {
    uint64_t id;
    uint32_t offset, size;
};

static struct entry *table;
static size_t places = 1 << 16, entries;

/* Where the id stands, or would. */
static struct entry *place_of(uint64_t id)
{
    size_t at = (size_t)(id * 0x9e3779b97f4a7c15 >> 32) & (places - 1);
    while (table[at].size != 0 && table[at].id != id)
        at = (at + 1) & (places - 1);
    return &table[at];
}

static void make_table(void)
{
    table = calloc(places, sizeof *table);
    if (!table)
        err(1, "table");
}

static void widen_table(void)
{
    struct entry *old = table;
    size_t count = places;
    places *= 2;
    make_table();
    for (size_t i = 0; i < count; i++)
        if (old[i].size != 0)
            *place_of(old[i].id) = old[i];
    free(old);
}

static void enter(struct entry entry)
{
    struct entry *place = place_of(entry.id);
    if (place->size == 0 && ++entries > places / 2) {
        widen_table();
        place = place_of(entry.id);
    }
    *place = entry;
}

/* ---- the files of the volume */

static char dat_path[32], idx_path[32];
static int dat = -1, idx = -1;
static uint64_t used;

static void name_files(const char *volume)
{
    snprintf(dat_path, sizeof dat_path, "%s/%s.dat", SERVER, volume);
    snprintf(idx_path, sizeof idx_path, "%s/%s.idx", SERVER, volume);
}

static void open_files(int how)
{
    dat = open(dat_path, O_RDWR | O_APPEND | how, 0666);
    idx = open(idx_path, O_RDWR | O_APPEND | how, 0666);
    if (dat < 0 || idx < 0)
        err(1, "%s", SERVER);
}

static void write_all(int file, const void *bytes, size_t length)
{
    while (length > 0) {
        ssize_t done = write(file, bytes, length);
        if (done < 0)
            err(1, "write");
        bytes = (const char *)bytes + done;
        length -= (size_t)done;
    }
}

static void append(int file, const unsigned char *bytes, size_t length)
{
    for (size_t at = 0; at < length; at += PIECE)
        write_all(file, bytes + at, length - at < PIECE ? length - at : PIECE);
    if (fsync(file) < 0)
        err(1, "fsync");
}

static void read_all(int file, unsigned char *to, size_t length, uint64_t from)
{
    for (size_t at = 0; at < length;) {
        ssize_t done = pread(file, to + at, length - at < PIECE ? length - at : PIECE, (off_t)(from + at));
        if (done <= 0)
            err(1, "pread");
        at += (size_t)done;
    }
}

static uint64_t length_of(const char *path)
{
    struct stat found;
    if (lstat(path, &found) < 0)
        err(1, "%s", path);
    return (uint64_t)found.st_size;
}

static void load_index(void)
{
    uint64_t length = length_of(idx_path);
    unsigned char *bytes = malloc(length + 1);
    if (!bytes)
        err(1, "index");
    read_all(idx, bytes, length, 0);
    for (uint64_t at = 0; at + ENTRY <= length; at += ENTRY)
        enter((struct entry){get_64(bytes + at), get_32(bytes + at + 8), get_32(bytes + at + 12)});
    free(bytes);
}

/* Opens the volume that a run before this one made. */
static void open_volume(const char *volume)
{
    name_files(volume);
    if (access(dat_path, F_OK) < 0)
        return;
    open_files(0);
    used = length_of(dat_path);
    load_index();
}

/* ---- lines */

static unsigned char record[MAX_RECORD];
static char reply[2 * MAX_DATA + 8];

static void say(const char *text, size_t length)
{
    write_all(STDOUT_FILENO, text, length);
}

static void create(void)
{
    static const unsigned char SUPER_BLOCK[8] = {3};
    mkdir(SERVER, 0777);
    open_files(O_CREAT | O_EXCL);
    append(dat, SUPER_BLOCK, sizeof SUPER_BLOCK);
    append(idx, SUPER_BLOCK, 0);
    used = sizeof SUPER_BLOCK;
    say("OK\n", 3);
}

/* The needle of the id, read whole and checked. Its data stands at DATA_AT of the record. */
static uint32_t read_needle(uint64_t id, uint32_t cookie)
{
    const struct entry *entry = place_of(id);
    uint64_t from = (uint64_t)entry->offset * UNIT;
    size_t length = ((size_t)HEADER + entry->size + TRAILER) / UNIT * UNIT + UNIT;
    if (entry->size == 0 || from + length > length_of(dat_path))
        errx(1, "no needle %llu", (unsigned long long)id);
    read_all(dat, record, length, from);
    uint32_t size = get_32(record + DATA_AT - 4);
    if (get_32(record) != cookie || get_64(record + 4) != id || get_32(record + 12) != entry->size
        || size + 5 != entry->size)
        errx(1, "another needle than %llu", (unsigned long long)id);
    uint32_t stored = get_32(record + HEADER + entry->size), computed = checksum(record + DATA_AT, size);
    if (stored != computed && stored != masked(computed))
        errx(1, "damaged needle %llu", (unsigned long long)id);
    return size;
}

static void get(uint64_t id, uint32_t cookie)
{
    uint32_t size = read_needle(id, cookie);
    memcpy(reply, "OK ", 3);
    encode(reply + 3, record + DATA_AT, size);
    reply[3 + 2 * (size_t)size] = '\n';
    say(reply, 4 + 2 * (size_t)size);
}

static uint64_t now(void)
{
    struct timespec time;
    clock_gettime(CLOCK_REALTIME, &time);
    return (uint64_t)time.tv_sec * 1000000000 + (uint64_t)time.tv_nsec;
}

/* The cookie in the header of the needle that stands. */
static uint32_t stored_cookie(const struct entry *entry)
{
    unsigned char header[HEADER];
    length_of(dat_path);
    read_all(dat, header, HEADER, (uint64_t)entry->offset * UNIT);
    return get_32(header);
}

static void put(uint64_t id, uint32_t cookie, const char *digits, size_t count)
{
    uint32_t length = (uint32_t)(count / 2), size = length + 5;
    if (count == 0 || count % 2 != 0 || length > MAX_DATA || !decode(record + DATA_AT, digits, length))
        errx(1, "no data");
    const struct entry *stands = place_of(id);
    if (stands->size != 0 && stored_cookie(stands) != cookie)
        errx(1, "another cookie");
    put_32(record, cookie);
    put_64(record + 4, id);
    put_32(record + 12, size);
    put_32(record + HEADER, length);
    unsigned char *behind = record + DATA_AT + length;
    *behind = 0;
    put_32(behind + 1, checksum(record + DATA_AT, length));
    put_64(behind + 5, now());
    size_t whole = ((size_t)HEADER + size + TRAILER) / UNIT * UNIT + UNIT;
    memset(behind + 13, 0, (size_t)(record + whole - (behind + 13)));
    struct entry entry = {id, (uint32_t)(used / UNIT), size};
    unsigned char spelled[ENTRY];
    put_64(spelled, entry.id);
    put_32(spelled + 8, entry.offset);
    put_32(spelled + 12, entry.size);
    enter(entry);
    append(dat, record, whole);
    append(idx, spelled, ENTRY);
    used += whole;
    say("OK\n", 3);
}

/* A word behind which the rest of the line stands. */
struct word {
    const char *text;
    size_t length;
};

static struct word next_word(struct word *rest)
{
    while (rest->length > 0 && *rest->text == ' ') {
        rest->text++;
        rest->length--;
    }
    const char *end = memchr(rest->text, ' ', rest->length);
    struct word word = {rest->text, end ? (size_t)(end - rest->text) : rest->length};
    rest->text += word.length;
    rest->length -= word.length;
    return word;
}

static int is(struct word word, const char *wanted)
{
    return word.length == strlen(wanted) && memcmp(word.text, wanted, word.length) == 0;
}

static uint64_t decimal(struct word word)
{
    uint64_t number = 0;
    for (size_t i = 0; i < word.length; i++) {
        unsigned digit = (unsigned)(word.text[i] - '0');
        if (digit > 9)
            errx(1, "no number");
        number = number * 10 + digit;
    }
    return number;
}

static uint32_t cookie_of(struct word word)
{
    unsigned char bytes[4];
    if (word.length != 8 || !decode(bytes, word.text, 4))
        errx(1, "no cookie");
    return get_32(bytes);
}

static void carry_out(struct word line)
{
    struct word first = next_word(&line);
    if (is(first, "volume.create")) {
        create();
        return;
    }
    decimal(next_word(&line));
    uint64_t id = decimal(next_word(&line));
    uint32_t cookie = cookie_of(next_word(&line));
    struct word data = next_word(&line);
    if (is(first, "get"))
        get(id, cookie);
    else if (is(first, "put"))
        put(id, cookie, data.text, data.length);
    else
        errx(1, "unknown line");
}

/* ---- standard input, cut into lines */

static char chunk[PIECE], kept[MAX_LINE];
static size_t kept_length;

/* Keeps a part of a line, the end of which is to come. */
static void keep(const char *part, size_t length)
{
    if (length > MAX_LINE - kept_length)
        errx(1, "long line");
    memcpy(kept + kept_length, part, length);
    kept_length += length;
}

/* A line that stands in one chunk is read there. */
static void end_line(const char *part, size_t length)
{
    if (kept_length == 0) {
        carry_out((struct word){part, length});
        return;
    }
    keep(part, length);
    carry_out((struct word){kept, kept_length});
    kept_length = 0;
}

static void cut(const char *part, size_t length)
{
    for (const char *end; (end = memchr(part, '\n', length)); ) {
        size_t taken = (size_t)(end - part);
        end_line(part, taken);
        part = end + 1;
        length -= taken + 1;
    }
    keep(part, length);
}

int main(int words, char **word)
{
    make_digits();
    make_sums();
    make_table();
    open_volume(words > 1 ? word[1] : "7");
    say("ready\n", 6);
    for (;;) {
        ssize_t length = read(STDIN_FILENO, chunk, PIECE);
        if (length < 0)
            err(1, "read");
        if (length == 0)
            return 0;
        cut(chunk, (size_t)length);
    }
}
