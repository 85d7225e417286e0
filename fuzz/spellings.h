/* Accepted documents spelled otherwise: characters of values by another reference, and spaces by reference put where they are dropped. What is said stays. */

/* Which characters of a value go by number, and at which ends a space is put to it. A spelling is a sum of these; how a number is written goes by the ends. */
enum { FIRST_ONE = 1, LAST_ONE = 2, MIDDLE = 4, BEFORE = 8, AFTER = 16, SPELLINGS = 32 };
static const char *const NUMBERS[] = {"&#%u;", "&#0%u;", "&#x%X;", "&#x0%x;"};

static int has_name(const uint8_t *at, const char *name) {
    return memcmp(at, name, strlen(name)) == 0 && !is_name(at[strlen(name)]);
}

static int is_among(const uint8_t *element, const struct pair *of, size_t count) {
    for (size_t k = 0; k < count; k++)
        if (of[k].drops && of[k].element != NULL && of[k].attribute[0] == 'v' && has_name(element, of[k].element)) return 1;
    return 0;
}

/* Whether spaces are dropped of the value behind a quote. The kinds do not differ in that. */
static int drops_spaces(const uint8_t *doc, size_t quote) {
    size_t at = quote;
    while (doc[at - 1] == '=' || doc[at - 1] == ' ' || (doc[at - 1] >= 9 && doc[at - 1] <= 13)) at--;
    if (ends_with(doc, at, "codingScheme")) return 1;
    if (!ends_with(doc, at, "v")) return 0;
    while (doc[at - 1] != '<') at--; /* no value holds one */
    const uint8_t *element = doc + at;
    return has_name(element, "Pos") || has_name(element, "Qty") || is_among(element, HEADER_1, LUMINTAYAG_HEADER_PAIRS) ||
           is_among(element, HEADER_3, LUMINTAYAG_HEADER_PAIRS) || is_among(element, SERIES_1, LUMINTAYAG_SERIES_PAIRS) ||
           is_among(element, SERIES_2, LUMINTAYAG_SERIES_PAIRS) || is_among(element, SERIES_3, LUMINTAYAG_SERIES_PAIRS);
}

/* The value of `count` bytes from `from` on, which takes at most eight times as many, and sixteen where spaces are put to it. */
static size_t put_value(const uint8_t *doc, size_t from, size_t count, int spelling, uint8_t *out) {
    const char *number = NUMBERS[spelling / BEFORE];
    size_t put = 0, end = from + count, many;
    int drops = drops_spaces(doc, from - 1);
    if (drops && (spelling & BEFORE)) put += (size_t)sprintf((char *)out, number, ' ');
    for (size_t i = from; i < end; i += many) {
        uint32_t said;
        many = unit_at(doc + i, end - i, &said);
        int place = (i == from ? FIRST_ONE : 0) | (i + many == end ? LAST_ONE : 0);
        if ((place == 0 ? MIDDLE : place) & spelling) put += (size_t)sprintf((char *)out + put, number, said);
        else memcpy(out + put, doc + i, many), put += many;
    }
    if (drops && (spelling & AFTER)) put += (size_t)sprintf((char *)out + put, number, ' ');
    return put;
}

/* After a comment or a declaration that begins at `at`, else `at`. */
static size_t passed(const uint8_t *doc, size_t at) {
    const char *end = memcmp(doc + at, "<!--", 4) == 0 ? "-->" : memcmp(doc + at, "<?", 2) == 0 ? "?>" : NULL;
    if (end == NULL) return at;
    for (at += strlen(end) + 1; memcmp(doc + at, end, strlen(end)) != 0;) at++;
    return at + strlen(end);
}

/* An accepted document in a spelling. `out` has room for eight times its bytes: a value has two quotes and a `=` beside it. */
static size_t respell(const uint8_t *doc, int spelling, uint8_t *out) {
    size_t put = 0;
    for (size_t i = 0; i < length;) {
        size_t many = doc[i] == '<' ? passed(doc, i) - i : 0;
        int is_quote = doc[i] == '"' || doc[i] == '\'';
        if (many == 0) many = 1;
        memcpy(out + put, doc + i, many), put += many;
        i += many;
        if (!is_quote) continue;
        size_t count = (size_t)((const uint8_t *)memchr(doc + i, doc[i - 1], length - i) - (doc + i));
        put += put_value(doc, i, count, spelling, out + put);
        out[put++] = doc[i - 1];
        i += count + 1;
    }
    return put;
}

/* An accepted document in which the series `to` has the identification of the series `from`, in a spelling, and with its last character twice where there is
 * `more`; 0 where it holds a quote, which may close the other value. `view` is where it stands. */
static size_t repeat(const uint8_t *doc, const uint32_t *from, const uint32_t *to, int spelling, int more, uint8_t *out, uint32_t *view) {
    size_t put = to[0], after = put + to[1], end = (size_t)from[0] + from[1], many = 0;
    if (memchr(doc + from[0], doc[after], from[1]) != NULL) return 0;
    uint32_t said;
    for (size_t i = from[0]; i < end; i += many) many = unit_at(doc + i, end - i, &said);
    memcpy(out, doc, put);
    put += put_value(doc, from[0], from[1], spelling, out + put);
    if (more) memcpy(out + put, doc + end - many, many), put += many;
    view[0] = to[0], view[1] = (uint32_t)put - to[0];
    memcpy(out + put, doc + after, length - after);
    return put + length - after;
}
