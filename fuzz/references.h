/* References in values, once more from the papers: what a value says, and what an accepted document may hold of them. */

static uint32_t digit_of(uint8_t b, uint32_t base) {
    uint32_t digit = b >= '0' && b <= '9' ? b - '0' : (b >= 'a' && b <= 'f') || (b >= 'A' && b <= 'F') ? (b | 32u) - 'a' + 10 : 16;
    return digit < base ? digit : 16;
}

static int is_xml(uint32_t c) {
    return c == 9 || c == 10 || c == 13 || (c >= 0x20 && c < 0xD800) || (c > 0xDFFF && c < 0xFFFE) || (c > 0xFFFF && c < 0x110000);
}

/* The length of the reference at the front, and the character that it names; 0 where there is none. */
static size_t reference_at(const uint8_t *s, size_t count, uint32_t *named) {
    static const char *const NAMES[] = {"&amp;", "&lt;", "&gt;", "&quot;", "&apos;"};
    for (int k = 0; k < 5; k++)
        if (count >= strlen(NAMES[k]) && memcmp(s, NAMES[k], strlen(NAMES[k])) == 0) return *named = (uint8_t)"&<>\"'"[k], strlen(NAMES[k]);
    if (count < 4 || s[0] != '&' || s[1] != '#') return 0;
    uint32_t base = s[2] == 'x' ? 16 : 10, number = 0;
    size_t first = base == 16 ? 3 : 2, i = first;
    for (; i < count && digit_of(s[i], base) < 16; i++)
        if (number < 0x110000) number = number * base + digit_of(s[i], base); /* from there on it is no character */
    *named = number;
    return i > first && i < count && s[i] == ';' && is_xml(number) ? i + 1 : 0;
}

/* The length of the character at the front in UTF-8, as far as it is there, and the character. */
static size_t utf8_at(const uint8_t *s, size_t count, uint32_t *c) {
    size_t many = s[0] < 0x80 ? 1 : s[0] < 0xE0 ? 2 : s[0] < 0xF0 ? 3 : 4;
    if (many > count) many = count;
    *c = many == 1 ? s[0] : s[0] & (0x7Fu >> many);
    for (size_t k = 1; k < many; k++) *c = *c << 6 | (s[k] & 0x3F);
    return many;
}

/* The length of the unit at the front, a character as it stands or a whole reference, and the character that it says. */
static size_t unit_at(const uint8_t *s, size_t count, uint32_t *said) {
    if (s[0] != '&') return utf8_at(s, count, said);
    size_t many = reference_at(s, count, said);
    hold(many > 0, "a value of an accepted document has no other reference");
    return many;
}

/* A character in UTF-8: never longer than a reference to it. */
static size_t put_utf8(uint32_t c, uint8_t *out) {
    size_t more = c < 0x80 ? 0 : c < 0x800 ? 1 : c < 0x10000 ? 2 : 3;
    for (size_t k = more; k > 0; k--, c >>= 6) out[k] = (uint8_t)(0x80 | (c & 0x3F));
    out[0] = (uint8_t)(more == 0 ? c : (0xF0u << (3 - more)) | c);
    return more + 1;
}

/* What a value says; `out` has room for as many bytes as the value. */
static size_t meaning(const uint8_t *s, size_t count, uint8_t *out) {
    size_t said = 0;
    for (size_t i = 0; i < count;) {
        uint32_t c;
        size_t many = unit_at(s + i, count - i, &c);
        if (s[i] != '&') memcpy(out + said, s + i, many), said += many;
        else said += put_utf8(c, out + said);
        i += many;
    }
    return said;
}

/* What a view says, and a 0 after it. The bytes are the caller's to free. */
struct said {
    uint8_t *bytes;
    size_t count;
};

static struct said said_by(const uint8_t *doc, const uint32_t *view) {
    struct said s = {filled((size_t)view[1] + 1, 0), 0};
    s.count = meaning(doc + view[0], view[1], s.bytes);
    s.bytes[s.count] = 0;
    return s;
}

static int says_code(const uint8_t *doc, const uint32_t *view, const char *code) {
    struct said s = said_by(doc, view);
    int is_code = s.count == strlen(code) && memcmp(s.bytes, code, s.count) == 0;
    free(s.bytes);
    return is_code;
}

/* Whether bytes are spaces alone, each as such or by reference. */
static int all_spaces(const uint8_t *s, size_t count) {
    uint32_t said = ' ';
    for (size_t i = 0; i < count && said == ' ';) i += unit_at(s + i, count - i, &said);
    return said == ' ';
}

/* Whether neither the first nor the last unit is a space. */
static int has_no_space_at_ends(const uint8_t *s, size_t count) {
    uint32_t first = ' ', last = ' ';
    for (size_t i = 0; i < count;) {
        size_t many = unit_at(s + i, count - i, &last);
        if (i == 0) first = last;
        i += many;
    }
    return first != ' ' && last != ' ';
}

/* How many characters are said: the bytes that do not go on with one. */
static size_t characters_of(struct said s) {
    size_t many = 0;
    for (size_t i = 0; i < s.count; i++) many += (s.bytes[i] & 0xC0) != 0x80;
    return many;
}

/* Whether one of the first rows shows an identification that says the same. */
static int is_said_before(const uint8_t *doc, const uint32_t *rows, size_t count, struct said own) {
    int is_said = 0;
    for (size_t k = 0; k < count && !is_said; k++) {
        struct said other = said_by(doc, rows + LUMINTAYAG_SERIES_ROW * k);
        is_said = own.count == other.count && memcmp(own.bytes, other.bytes, own.count) == 0;
        free(other.bytes);
    }
    return is_said;
}

/* The identifications of an accepted document, the first view of each row. */
static void judge_meanings(const uint8_t *doc, const uint32_t *rows, size_t count) {
    for (size_t i = 0; i < count; i++) {
        struct said own = said_by(doc, rows + LUMINTAYAG_SERIES_ROW * i);
        hold(characters_of(own) <= 35, "an identification has at most 35 characters");
        hold(!is_said_before(doc, rows, i, own), "no two identifications say the same");
        free(own.bytes);
    }
}
