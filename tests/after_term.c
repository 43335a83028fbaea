/* The header compiles after ncurses' <term.h>, which defines `lines` and `columns` as macros. */
#if defined __has_include
#if __has_include(<term.h>)
#include <term.h>
#endif
#endif
#ifndef lines
#define lines CUR Numbers[2]
#define columns CUR Numbers[0]
#endif
#include "termcap_proved.h"
