/* What the trusted side alone includes. */
#ifndef VAULT_TRUSTED_H
#define VAULT_TRUSTED_H
#include "vault.h"
#endif
