/* <stdbool.h> for a compiler that comes without its headers, as the Rattle kit's clang does. */
#ifndef FREESTANDING_STDBOOL_H
#define FREESTANDING_STDBOOL_H
#ifndef __cplusplus
#define bool _Bool
#define true 1
#define false 0
#endif
#endif
