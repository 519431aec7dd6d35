/*
** The registers by the names that document 01 gives them.
*/
#ifndef REGISTERS_H
#define REGISTERS_H

/* The name of a place of the state image, 0 to 22. */
const char *register_name(int place);

#endif
