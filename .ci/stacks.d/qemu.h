/* What hw/usb/core.c and desc.c of QEMU use of it, in place of qemu/osdep.h and others, without glib. */
#pragma once
#include <assert.h>
#include <errno.h>
#include <stdbool.h>
#include <stddef.h>
#include <stdint.h>
#include <stdio.h>
#include <stdlib.h>
#include <string.h>
#include <sys/types.h>
#include <sys/uio.h>

#define g_malloc malloc
#define g_malloc0(size) calloc(1, size)
#define g_free free
#define g_strdup strdup
#define g_strdup_printf(...) strdup("serial")
#define g_autofree __attribute__((cleanup(free_what_is_at)))
#define g_assert_not_reached() abort()
static inline void free_what_is_at(void *at) { free(*(void **)at); }

#define ARRAY_SIZE(array) (sizeof(array) / sizeof((array)[0]))
#define container_of(at, type, member) ((type *)((char *)(at) - offsetof(type, member)))
#define MIN(a, b) ((a) < (b) ? (a) : (b))
#define DIV_ROUND_UP(n, by) (((n) + (by) - 1) / (by))
#define ROUND_UP(n, to) (DIV_ROUND_UP(n, to) * (to))
#define pstrcpy(to, size, from) snprintf(to, size, "%s", from)
#define QEMU_PACKED __attribute__((packed))
#define OBJECT_CHECK(type, object, name) ((type *)(object))
#define DO_UPCAST(type, field, at) ((type *)(at))
#define OBJECT_DECLARE_TYPE(instance, class, name) typedef struct instance instance; typedef struct class class;
#define OBJECT_DECLARE_SIMPLE_TYPE(instance, name) typedef struct instance instance;

typedef struct Error Error;
typedef struct Monitor Monitor;
typedef struct QDict QDict;
typedef struct QEMUSGList QEMUSGList;
typedef struct VMStateDescription VMStateDescription;
typedef struct MemoryRegion MemoryRegion;
typedef struct USBBus USBBus;
typedef struct USBBusOps USBBusOps;
typedef struct USBPort USBPort;
typedef struct USBPacket USBPacket;
typedef struct USBCombinedPacket USBCombinedPacket;
typedef struct USBEndpoint USBEndpoint;
typedef struct Object { int unused; } Object;
typedef struct BusState { struct DeviceState *parent; } BusState;
typedef struct DeviceState { Object parent; char *id; BusState *parent_bus; } DeviceState;
typedef struct DeviceClass { Object parent; } DeviceClass;
enum { PHASE_MACHINE_READY };
static inline bool phase_check(int phase) { return (void)phase, true; }
static inline char *qdev_get_dev_path(DeviceState *it) { return (void)it, NULL; }
static inline bool qdev_hotplug_allowed(void) { return true; }

/* a list of one piece */
typedef struct QEMUIOVector { struct iovec *iov; int niov; size_t size; struct iovec one; } QEMUIOVector;
static inline void qemu_iovec_init(QEMUIOVector *v, int hint) { (void)hint, v->iov = &v->one, v->niov = 0, v->size = 0; }
static inline void qemu_iovec_destroy(QEMUIOVector *v) { (void)v; }
static inline void qemu_iovec_reset(QEMUIOVector *v) { v->niov = 0, v->size = 0; }
static inline void qemu_iovec_add(QEMUIOVector *v, void *at, size_t size) { v->one = (struct iovec){at, size}, v->niov = 1, v->size = size; }
static inline void qemu_iovec_concat(QEMUIOVector *to, QEMUIOVector *from, size_t place, size_t size) { (void)to, (void)from, (void)place, (void)size; }
static inline size_t iov_to_buf(const struct iovec *v, unsigned count, size_t place, void *to, size_t size) { return (void)count, memcpy(to, (char *)v->iov_base + place, size), size; }
static inline size_t iov_from_buf(const struct iovec *v, unsigned count, size_t place, const void *from, size_t size) { return (void)count, memcpy((char *)v->iov_base + place, from, size), size; }
static inline size_t iov_memset(const struct iovec *v, unsigned count, size_t place, int byte, size_t size) { return (void)v, (void)count, (void)place, (void)byte, size; }

#define trace_usb_clear_device_feature(...) ((void)0)
#define trace_usb_desc_bos(...) ((void)0)
#define trace_usb_desc_config(...) ((void)0)
#define trace_usb_desc_device(...) ((void)0)
#define trace_usb_desc_device_qualifier(...) ((void)0)
#define trace_usb_desc_msos(...) ((void)0)
#define trace_usb_desc_other_speed_config(...) ((void)0)
#define trace_usb_desc_string(...) ((void)0)
#define trace_usb_packet_state_change(...) ((void)0)
#define trace_usb_packet_state_fault(...) ((void)0)
#define trace_usb_set_addr(...) ((void)0)
#define trace_usb_set_config(...) ((void)0)
#define trace_usb_set_device_feature(...) ((void)0)
#define trace_usb_set_interface(...) ((void)0)
