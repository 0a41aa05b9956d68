#define sgx_lfence() __asm__ volatile("lfence" ::: "memory")
