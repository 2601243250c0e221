/* stunp_find returns the offset of the value, which the calls that read a value take.
 *
 * harmless: test test 7 */
#include "stunp.h"
#include <stdio.h>

int main(void) {
    uint8_t out[64], id[12] = {1};
    size_t length = 0;
    uint64_t number = 0;
    stunp_writer writer = stunp_write(STUNP_REQUEST, STUNP_BINDING, id, out, sizeof out);
    stunp_write_text(&writer, STUNP_SOFTWARE, "test");
    stunp_write_number(&writer, STUNP_PRIORITY, 7, 4);
    int64_t found = stunp_find(out, writer.length, STUNP_SOFTWARE, &length);
    int64_t text = stunp_find_text(out, writer.length, STUNP_SOFTWARE, &length);
    int64_t place = stunp_find(out, writer.length, STUNP_PRIORITY, &length);
    if (found < 0 || text < 0 || place < 0 || stunp_written(&writer) < 0
        || stunp_read_number(out, writer.length, (size_t)place, &number) != 4)
        return 1;
    printf("%.4s %.4s %d\n", (const char *)out + found, (const char *)out + text, (int)number);
    return 0;
}
