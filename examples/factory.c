/* Prints the factory image of corridor_tag.h as the line that the corridor program takes. */
#include "corridor_tag.h"
#include "host.h"

static const uint8_t image[] = CORRIDOR_FACTORY_45;

int program(void) {
    print("image ");
    for (size_t i = 0; i < sizeof image; i++)
        print_hex(image[i]);
    print("\n");
    return 0;
}
