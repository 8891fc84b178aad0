/* Explains why two queries over a table differ: cc explain.c $(pkg-config --cflags --libs ratest) */
#include <ratest.h>
#include <stdio.h>
#include <string.h>

static uint8_t request[4096], reply[65536];
static size_t used;

static void number(uint32_t n) {
    for (int shift = 0; shift < 32; shift += 8) request[used++] = (uint8_t)(n >> shift);
}

static void field(const char *text) {
    number((uint32_t)strlen(text));
    memcpy(request + used, text, strlen(text));
    used += strlen(text);
}

int main(void) {
    number(4), number(4); /* arguments, files */
    field("schema.sql"), field("data"), field("1.sql"), field("2.sql");
    field("schema.sql"), field("CREATE TABLE beer (name TEXT PRIMARY KEY, price INTEGER);");
    field("data/beer.csv"), field("name,price\nDixie,3\nCorona,\n");
    field("1.sql"), field("SELECT name FROM beer");
    field("2.sql"), field("SELECT name FROM beer WHERE price <> 4");
    int64_t length = ratest_ask(request, used, reply, sizeof reply);
    if (length < 0) return 70;
    size_t out = reply[1] | reply[2] << 8 | reply[3] << 16 | (size_t)reply[4] << 24;
    fwrite(reply + 5, 1, out, stdout);
    fwrite(reply + 5 + out, 1, (size_t)length - 5 - out, stderr);
    return reply[0];
}
