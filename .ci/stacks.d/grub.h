/* GRUB's configuration, in place of config.h. */
#define SIZEOF_VOID_P 8
#define SIZEOF_LONG 8
#define GRUB_TARGET_SIZEOF_VOID_P 8
#define GRUB_TARGET_SIZEOF_LONG 8
#define PACKAGE_STRING "x"
