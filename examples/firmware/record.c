/* Seals records as TLS 1.3 does and compares them with published ones, opens them, and refuses them with a changed bit or out of order. */
#include "say.h"
#include "tls_record.h"

#define MESSAGE 50
#define ALERT 21
#define DATA 23

/* RFC 8448, section 3: the client's keys and its two records, the bytes 0 to 49 and the alert close_notify. */
static const uint8_t gcm_key[16] = {0x17, 0x42, 0x2d, 0xda, 0x59, 0x6e, 0xd5, 0xd9, 0xac, 0xd8, 0x90, 0xe3, 0xc6, 0x3f, 0x50, 0x51};
static const uint8_t gcm_iv[12] = {0x5b, 0x78, 0x92, 0x3d, 0xee, 0x08, 0x57, 0x90, 0x33, 0xe5, 0x23, 0xd9};
static const uint8_t data_record[72] = {
    0x17, 0x03, 0x03, 0x00, 0x43, 0xa2, 0x3f, 0x70, 0x54, 0xb6, 0x2c, 0x94, 0xd0, 0xaf, 0xfa, 0xfe, 0x82, 0x28, 0xba, 0x55,
    0xcb, 0xef, 0xac, 0xea, 0x42, 0xf9, 0x14, 0xaa, 0x66, 0xbc, 0xab, 0x3f, 0x2b, 0x98, 0x19, 0xa8, 0xa5, 0xb4, 0x6b, 0x39,
    0x5b, 0xd5, 0x4a, 0x9a, 0x20, 0x44, 0x1e, 0x2b, 0x62, 0x97, 0x4e, 0x1f, 0x5a, 0x62, 0x92, 0xa2, 0x97, 0x70, 0x14, 0xbd,
    0x1e, 0x3d, 0xea, 0xe6, 0x3a, 0xee, 0xbb, 0x21, 0x69, 0x49, 0x15, 0xe4};
static const uint8_t alert_record[24] = {
    0x17, 0x03, 0x03, 0x00, 0x13, 0xc9, 0x87, 0x27, 0x60, 0x65, 0x56, 0x66, 0xb7, 0x4d, 0x7f, 0xf1, 0x15, 0x3e, 0xfd, 0x6d,
    0xb6, 0xd0, 0xb0, 0xe3};
static const uint8_t close_notify[2] = {1, 0};

/* RFC 9001, appendix A.5: a packet of QUIC, whose nonce is made in the same way. */
#define PACKET_NUMBER 654360564
static const uint8_t chacha_key[32] = {
    0xc6, 0xd9, 0x8f, 0xf3, 0x44, 0x1c, 0x3f, 0xe1, 0xb2, 0x18, 0x20, 0x94, 0xf6, 0x9c, 0xaa, 0x2e, 0xd4, 0xb7, 0x16, 0xb6,
    0x54, 0x88, 0x96, 0x0a, 0x7a, 0x98, 0x49, 0x79, 0xfb, 0x23, 0xe1, 0xc8};
static const uint8_t chacha_iv[12] = {0xe0, 0x45, 0x9b, 0x34, 0x74, 0xbd, 0xd0, 0xe4, 0x4a, 0x41, 0xc1, 0x44};
static const uint8_t packet_header[4] = {0x42, 0x00, 0xbf, 0xf4};
static const uint8_t packet[17] = {0x65, 0x5e, 0x5c, 0xd5, 0x5c, 0x41, 0xf6, 0x90, 0x80, 0x57, 0x5d, 0x79, 0x99, 0xc2, 0x5a, 0x5b, 0xfb};

/* By OpenSSL, with that key and number: the bytes 0 to 49 in a record with three zeros behind the type. */
static const uint8_t padded_record[75] = {
    0x17, 0x03, 0x03, 0x00, 0x46, 0x64, 0x29, 0x3e, 0x25, 0xf4, 0xc7, 0x6d, 0x57, 0xf7, 0x50, 0x54, 0x05, 0x37, 0x34, 0x35,
    0x05, 0xbf, 0xf8, 0x8c, 0x9f, 0xb9, 0x29, 0xb9, 0x8b, 0xa6, 0x3d, 0x1b, 0xc4, 0x9c, 0x88, 0xe5, 0xe6, 0x86, 0xcb, 0x3c,
    0xea, 0x5a, 0xb0, 0x27, 0x0e, 0x0a, 0x2b, 0x6e, 0xdc, 0xef, 0xf2, 0xbd, 0x73, 0xd8, 0x5d, 0x86, 0x46, 0x5a, 0x54, 0x40,
    0xf7, 0x09, 0x19, 0x43, 0xb0, 0x47, 0x81, 0xf5, 0xda, 0x32, 0x40, 0x30, 0xeb, 0xac, 0xb1};

static uint8_t record[RECORD_HEADER + MESSAGE + RECORD_BEHIND + 3];

static void put(const uint8_t *bytes, uint32_t count) {
    for (uint32_t at = 0; at < count; at++)
        record[at] = bytes[at];
}

/* The bytes 0 to 49 are the text. */
static void put_message(void) {
    for (uint32_t at = 0; at < MESSAGE; at++)
        record[RECORD_HEADER + at] = (uint8_t)at;
}

static bool is_message(const struct record_text *text) {
    bool right = text->type == DATA && text->count == MESSAGE;
    for (uint32_t at = 0; at < MESSAGE; at++)
        right = right && record[RECORD_HEADER + at] == at;
    return right;
}

static void sealed(void) {
    struct record_keys keys;
    record_init(&keys, AES_128_GCM, gcm_key, gcm_iv);
    put_message();
    uint32_t size = record_seal(&keys, DATA, record, MESSAGE);
    say_bytes("data    ", record, size);
    judge(size == sizeof data_record && same(record, data_record, size), "AES-128-GCM: application data as in RFC 8448");
    record[RECORD_HEADER] = close_notify[0];
    record[RECORD_HEADER + 1] = close_notify[1];
    size = record_seal(&keys, ALERT, record, sizeof close_notify);
    say_bytes("alert   ", record, size);
    judge(size == sizeof alert_record && same(record, alert_record, size), "AES-128-GCM: the alert behind it");
    judge(record_seal(&keys, DATA, record, RECORD_MOST + 1) == 0, "a text that is too long is refused");
    record_wipe(&keys);
}

static void opened(void) {
    struct record_keys keys;
    struct record_text text;
    record_init(&keys, AES_128_GCM, gcm_key, gcm_iv);
    put(alert_record, sizeof alert_record);
    judge(!record_open(&keys, record, sizeof alert_record, &text), "the second record is refused before the first");
    put(data_record, sizeof data_record);
    judge(record_open(&keys, record, sizeof data_record, &text) && is_message(&text), "application data is opened");
    put(data_record, sizeof data_record);
    judge(!record_open(&keys, record, sizeof data_record, &text), "the first record is refused when it comes again");
    put(alert_record, sizeof alert_record);
    bool right = record_open(&keys, record, sizeof alert_record, &text) && text.type == ALERT && text.count == 2;
    judge(right && same(record + RECORD_HEADER, close_notify, 2), "the alert is opened");
    record_wipe(&keys);
}

/* Each bit of a record with the message, header and tag among them. */
static void changed(struct record_keys *keys, const char *title, const uint8_t *bytes, uint32_t size) {
    struct record_text text;
    uint32_t accepted = 0;
    for (uint32_t bit = 0; bit < 8 * size; bit++) {
        put(bytes, size);
        record[bit / 8] ^= (uint8_t)(1 << bit % 8);
        accepted += record_open(keys, record, size, &text);
    }
    say(title);
    judge(accepted == 0, "each changed bit is refused");
    put(bytes, size);
    judge(record_open(keys, record, size, &text) && is_message(&text), "without a change it is opened");
    record_wipe(keys);
}

static void packets(void) {
    struct record_keys keys;
    struct gcm_data header = {packet_header, sizeof packet_header};
    record_init(&keys, CHACHA20_POLY1305, chacha_key, chacha_iv);
    keys.number = PACKET_NUMBER;
    record[0] = 1;
    protect(&keys, header, record, 1);
    say_bytes("packet  ", record, sizeof packet);
    judge(same(record, packet, sizeof packet), "ChaCha20-Poly1305: a packet as in RFC 9001");
    judge(unprotect(&keys, header, record, 1) && record[0] == 1, "the packet is opened");
    record_wipe(&keys);
}

int main(void) {
    struct record_keys keys;
    sealed();
    opened();
    packets();
    record_init(&keys, AES_128_GCM, gcm_key, gcm_iv);
    changed(&keys, "AES-128-GCM\n", data_record, sizeof data_record);
    record_init(&keys, CHACHA20_POLY1305, chacha_key, chacha_iv);
    keys.number = PACKET_NUMBER;
    changed(&keys, "ChaCha20-Poly1305\n", padded_record, sizeof padded_record);
    return status();
}
