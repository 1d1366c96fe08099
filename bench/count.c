/* Makes each kind of call once on both tags, between two marks, for tools/instructions. Of each kind the proved tag comes first. */
#include "host.h"
#include "kinds.h"
#include "marks.h"

int program(void) {
    static struct kind kinds[KINDS];
    struct tag *tags[2] = {&proved, &plain};
    list_kinds(kinds);
    for (int k = 0; k < KINDS; k++) {
        for (int i = 0; i < 2; i++) {
            prepare(&kinds[k], tags[i]);
            count_begin();
            kinds[k].run(tags[i]);
            count_end();
        }
        print(kinds[k].name);
        print("\n");
    }
    return 0;
}
