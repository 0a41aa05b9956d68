#include "sgx_edger8r.h"
