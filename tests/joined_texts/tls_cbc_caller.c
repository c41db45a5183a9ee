#include "tls_cbc.h"
#include "caller.h"

/* What is wrong with sealing the content of a record with the least padding. */
static const char *wrong_seal(const struct vector *vector, const struct tls_record *record, uint8_t *bytes) {
    struct part sealed = vector->parts[4], content = vector->parts[5];
    if (tls_cbc_sealed_count(content.count) != sealed.count)
        return 0;
    taken(bytes, content);
    uint32_t count = tls_cbc_seal(vector->parts[0].bytes, vector->parts[1].bytes, record, bytes, content.count);
    return count == sealed.count && same(bytes, sealed) ? 0 : "seal";
}

const char *wrong_with(const struct vector *vector) {
    static uint8_t bytes[MOST_BYTES];
    struct part sealed = vector->parts[4], content = vector->parts[5];
    struct tls_record record;
    uint32_t count = 0xa5a5a5a5;
    taken(record.head, vector->parts[2]);
    taken(record.vector, vector->parts[3]);
    taken(bytes, sealed);
    bool right = tls_cbc_open(vector->parts[0].bytes, vector->parts[1].bytes, &record, bytes, sealed.count, &count);
    if (right != vector->accepted)
        return right ? "accepted" : "refused";
    if (count != content.count)
        return "count";
    if (!right)
        return all_zero(bytes, sealed.count) ? 0 : "not_wiped";
    if (!same(bytes, content))
        return "content";
    taken(bytes, sealed);
    record.head[7] ^= 1;
    if (tls_cbc_open(vector->parts[0].bytes, vector->parts[1].bytes, &record, bytes, sealed.count, &count))
        return "another_number";
    record.head[7] ^= 1;
    return wrong_seal(vector, &record, bytes);
}
