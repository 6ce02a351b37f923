/* The job of the program `ipnet` in plain C: reads a text of networks, joins them, and prints the shortest list.
 *
 *     floor < LIST
 *
 * It shows how little time the job takes without a proof and without messages. It reads the strict grammar, except for
 * IPv6 addresses that end in dotted form, and ends with status 1 at the first line that it cannot read. The output is
 * the same, byte by byte, as the output of `ipnet` on every list of the bench.
 */
#include <stdint.h>
#include <stdio.h>
#include <stdlib.h>
#include <string.h>
#include <unistd.h>

typedef unsigned __int128 u128;

typedef struct {
    u128 addr;
    uint32_t len;
} Net6;

enum { WINDOW = 1 << 16, AFTER = 64 };  /* AFTER: the zero bytes behind the text, which can be read */

static unsigned char window[WINDOW + AFTER];
static uint64_t *nets4;  /* the address above, the prefix length below */
static size_t count4, room4;
static Net6 *nets6;
static size_t count6, room6;

static unsigned char out[WINDOW + 128];
static size_t out_len;
static char decimals[256][4];   /* the digits, and their number at the end */
static unsigned char hex_values[256];

static void *grown(void *list, size_t *room, size_t size) {
    *room = *room ? 2 * *room : 1024;
    list = realloc(list, *room * size);
    if (!list) exit(2);
    return list;
}

static uint32_t mask4(uint32_t len) { return len ? ~(uint32_t)0 << (32 - len) : 0; }

static u128 mask6(uint32_t len) { return len ? ~(u128)0 << (128 - len) : 0; }

/* Appends a network without host bits. Drops it if the last network covers it, and joins it with its other half. */
static inline void put4(uint32_t addr, uint32_t len) {
    addr &= mask4(len);
    while (count4) {
        uint64_t last = nets4[count4 - 1];
        uint32_t last_len = (uint32_t)last, differ = (uint32_t)(last >> 32) ^ addr;
        if (len >= last_len && (differ & mask4(last_len)) == 0) return;
        if (len != last_len || len == 0 || (differ & mask4(len)) != (uint32_t)1 << (32 - len)) break;
        count4--;
        addr &= mask4(--len);
    }
    if (count4 == room4) nets4 = grown(nets4, &room4, sizeof *nets4);
    nets4[count4++] = (uint64_t)addr << 32 | len;
}

static inline void put6(u128 addr, uint32_t len) {
    addr &= mask6(len);
    while (count6) {
        uint32_t last_len = nets6[count6 - 1].len;
        u128 differ = nets6[count6 - 1].addr ^ addr;
        if (len >= last_len && (differ & mask6(last_len)) == 0) return;
        if (len != last_len || len == 0 || (differ & mask6(len)) != (u128)1 << (128 - len)) break;
        count6--;
        addr &= mask6(--len);
    }
    if (count6 == room6) nets6 = grown(nets6, &room6, sizeof *nets6);
    nets6[count6].addr = addr;
    nets6[count6++].len = len;
}

/* The number of digits of a decimal of at most three digits without a leading zero, or 0 if there is none. */
static inline int decimal(const unsigned char *text, uint32_t *value) {
    uint32_t a = text[0] - '0', b = text[1] - '0', c = text[2] - '0';
    if (a > 9) return 0;
    *value = a;
    if (b > 9) return 1;
    if (a == 0) return 0;
    *value = a * 10 + b;
    if (c > 9) return 2;
    *value = a * 100 + b * 10 + c;
    return 3;
}

/* Reads an IPv4 network and its newline. Returns the place after it, or NULL. */
static inline const unsigned char *line4(const unsigned char *text) {
    uint32_t addr = 0, value, len;
    int digits;
    for (int octet = 0; octet < 4; octet++) {
        digits = decimal(text, &value);
        if (!digits || value > 255 || text[digits] != (octet < 3 ? '.' : '/')) return NULL;
        addr = addr << 8 | value;
        text += digits + 1;
    }
    digits = decimal(text, &len);
    if (!digits || len > 32 || text[digits] != '\n') return NULL;
    put4(addr, len);
    return text + digits + 1;
}

/* Reads an IPv6 network and its newline. Returns the place after it, or NULL. */
static const unsigned char *line6(const unsigned char *text) {
    uint32_t groups[8], len;
    int count = 0, gap = -1, digits;
    u128 addr = 0;
    if (text[0] == ':') {
        if (text[1] != ':') return NULL;
        gap = 0;
        text += 2;
    }
    while (count < 8) {
        uint32_t value = 0;
        for (digits = 0; digits < 4 && hex_values[*text] < 16; digits++) value = value << 4 | hex_values[*text++];
        if (!digits) break;
        groups[count++] = value;
        if (*text != ':') break;
        if (text[1] == ':') {
            if (gap >= 0) return NULL;
            gap = count;
            text += 2;
        } else if (hex_values[*++text] > 15) {
            return NULL;
        }
    }
    if (gap < 0 ? count != 8 : count > 7) return NULL;
    for (int i = 0; i < (gap < 0 ? 8 : gap); i++) addr = addr << 16 | groups[i];
    if (gap >= 0) {
        for (int i = count; i < 8; i++) addr <<= 16;
        for (int i = gap; i < count; i++) addr = addr << 16 | groups[i];
    }
    if (*text++ != '/') return NULL;
    digits = decimal(text, &len);
    if (!digits || len > 128 || text[digits] != '\n') return NULL;
    put6(addr, len);
    return text + digits + 1;
}

/* Reads the whole lines of the window, and returns how many bytes they have. */
static size_t lines(size_t have) {
    const unsigned char *text = window, *end = window + have;
    while (text < end) {
        const unsigned char *next = *text == '\n' ? text + 1 : line4(text);
        if (!next) next = line6(text);
        if (!next && memchr(text, '\n', (size_t)(end - text))) exit(1);
        if (!next) break;
        text = next;
    }
    return (size_t)(text - window);
}

/* Sorts by digits of 11 bits, the lowest first, each pass into the other of two lists. The digits in which no two entries
 * differ are left out. */
enum { BITS = 11, DIGITS = 1 << BITS, PASSES4 = 4, PASSES6 = 13 };

static size_t places[DIGITS];  /* how many entries have the digit; then the place of the next one of them */

static void counted(void) {
    size_t place = 0;
    for (size_t digit = 0; digit < DIGITS; digit++) {
        size_t here = places[digit];
        places[digit] = place;
        place += here;
    }
}

static inline size_t digit4(uint64_t net, int pass) {
    return (size_t)(net >> (pass ? 32 + BITS * (pass - 1) : 0)) & (DIGITS - 1);
}

static inline size_t digit6(Net6 net, int pass) {
    return pass ? (size_t)(net.addr >> BITS * (pass - 1)) & (DIGITS - 1) : net.len;
}

static void sort4(void) {
    uint64_t *other = malloc(count4 * sizeof *other), differ = 0;
    if (!other) exit(2);
    for (size_t i = 0; i < count4; i++) differ |= nets4[i] ^ nets4[0];
    for (int pass = 0; pass < PASSES4; pass++) {
        if (!digit4(differ, pass)) continue;
        memset(places, 0, sizeof places);
        for (size_t i = 0; i < count4; i++) places[digit4(nets4[i], pass)]++;
        counted();
        for (size_t i = 0; i < count4; i++) other[places[digit4(nets4[i], pass)]++] = nets4[i];
        uint64_t *sorted = other;
        other = nets4;
        nets4 = sorted;
    }
    free(other);
}

static void sort6(void) {
    Net6 *other = malloc(count6 * sizeof *other), differ = {0, 0};
    if (!other) exit(2);
    for (size_t i = 0; i < count6; i++) {
        differ.addr |= nets6[i].addr ^ nets6[0].addr;
        differ.len |= nets6[i].len ^ nets6[0].len;
    }
    for (int pass = 0; pass < PASSES6; pass++) {
        if (!digit6(differ, pass)) continue;
        memset(places, 0, sizeof places);
        for (size_t i = 0; i < count6; i++) places[digit6(nets6[i], pass)]++;
        counted();
        for (size_t i = 0; i < count6; i++) other[places[digit6(nets6[i], pass)]++] = nets6[i];
        Net6 *sorted = other;
        other = nets6;
        nets6 = sorted;
    }
    free(other);
}

static void aggregate4(void) {
    size_t count = count4, at = 1;
    while (at < count && nets4[at - 1] <= nets4[at]) at++;
    if (at < count) sort4();
    count4 = 0;
    for (size_t i = 0; i < count; i++) put4((uint32_t)(nets4[i] >> 32), (uint32_t)nets4[i]);
}

static void aggregate6(void) {
    size_t count = count6, at = 1;
    while (at < count && nets6[at - 1].addr <= nets6[at].addr) at++;
    if (at < count) sort6();
    count6 = 0;
    for (size_t i = 0; i < count; i++) {
        Net6 net = nets6[i];
        put6(net.addr, net.len);
    }
}

static void flush(void) {
    for (size_t done = 0; done < out_len;) {
        ssize_t written = write(1, out + done, out_len - done);
        if (written <= 0) exit(2);
        done += (size_t)written;
    }
    out_len = 0;
}

static inline void print_decimal(uint32_t value, char after) {
    memcpy(out + out_len, decimals[value], 4);
    out_len += (size_t)decimals[value][3];
    out[out_len++] = (unsigned char)after;
}

static void print_dotted(uint32_t addr) {
    print_decimal(addr >> 24, '.');
    print_decimal(addr >> 16 & 255, '.');
    print_decimal(addr >> 8 & 255, '.');
    print_decimal(addr & 255, '/');
}

static void print_groups(const uint32_t *groups, int from, int to) {
    static const char digits[] = "0123456789abcdef";
    for (int i = from; i < to; i++) {
        if (i > from) out[out_len++] = ':';
        for (int shift = 12; shift >= 0; shift -= 4)
            if (shift == 0 || groups[i] >> shift) out[out_len++] = (unsigned char)digits[groups[i] >> shift & 15];
    }
}

static void print6(u128 addr) {
    uint32_t groups[8];
    int start = 8, longest = 0, run = 0;
    if (addr >> 32 == 0xffff) {
        memcpy(out + out_len, "::ffff:", 7);
        out_len += 7;
        print_dotted((uint32_t)addr);
        return;
    }
    for (int i = 7; i >= 0; i--) {
        groups[i] = (uint32_t)(addr >> 16 * (7 - i)) & 0xffff;
        run = groups[i] ? 0 : run + 1;
        if (run >= longest) {
            start = i;
            longest = run;
        }
    }
    if (longest < 2) {
        print_groups(groups, 0, 8);
    } else {
        print_groups(groups, 0, start);
        out[out_len++] = ':';
        out[out_len++] = ':';
        print_groups(groups, start + longest, 8);
    }
    out[out_len++] = '/';
}

static void tables(void) {
    for (int i = 0; i < 256; i++) {
        char text[8];
        int digits = snprintf(text, sizeof text, "%d", i);
        memcpy(decimals[i], text, 3);
        decimals[i][3] = (char)digits;
        hex_values[i] = 16;
    }
    for (int i = 0; i < 10; i++) hex_values['0' + i] = (unsigned char)i;
    for (int i = 0; i < 6; i++) hex_values['a' + i] = hex_values['A' + i] = (unsigned char)(10 + i);
}

int main(void) {
    size_t have = 0;
    ssize_t got;
    tables();
    while ((got = read(0, window + have, WINDOW - have)) > 0) {
        have += (size_t)got;
        memset(window + have, 0, AFTER);
        size_t taken = lines(have);
        if (taken == 0 && have == WINDOW) exit(1);
        memmove(window, window + taken, have - taken);
        have -= taken;
    }
    if (got < 0) return 2;
    if (have) {  /* the last line, without its newline */
        window[have++] = '\n';
        if (lines(have) != have) return 1;
    }
    aggregate4();
    aggregate6();
    for (size_t i = 0; i < count4; i++) {
        print_dotted((uint32_t)(nets4[i] >> 32));
        print_decimal((uint32_t)nets4[i] & 255, '\n');
        if (out_len > WINDOW) flush();
    }
    for (size_t i = 0; i < count6; i++) {
        print6(nets6[i].addr);
        print_decimal(nets6[i].len, '\n');
        if (out_len > WINDOW) flush();
    }
    flush();
    return 0;
}
