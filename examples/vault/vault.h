/* A type of C that the interface names and no EDL file declares. */
#ifndef VAULT_H
#define VAULT_H
#include <stdint.h>
typedef uint64_t* vault_id_t;
#endif
