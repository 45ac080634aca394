/* The numbers of ffi.rs and ring.rs, compared by build.rs with the headers of the machine that builds. Nothing of it is linked. */
#include <stddef.h>
#include <stdint.h>
#include <stdbool.h>
#include <fcntl.h>
#include <malloc.h>
#include <poll.h>
#include <sched.h>
#include <signal.h>
#include <sys/ioctl.h>
#include <sys/mman.h>
#include <sys/prctl.h>
#include <sys/file.h>
#include <sys/resource.h>
#include <sys/socket.h>
#include <sys/time.h>
#include <sys/signalfd.h>
#include <sys/syscall.h>
#include <time.h>
#include <linux/aio_abi.h>
#include <linux/capability.h>
#include <linux/filter.h>
#include <linux/if.h>
#include <linux/if_tun.h>
#include <linux/seccomp.h>
#include <linux/sockios.h>
#include <linux/virtio_net.h>
#include <xenevtchn.h>
#include <xengnttab.h>
#include <xenstore.h>
#include <xenstore_lib.h>
#include <xentoollog.h>
#include <xen/grant_table.h>
#include <xen/sys/evtchn.h>
#include <xen/sys/gntalloc.h>
#include <xen/sys/gntdev.h>
#include <xen/io/netif.h>

#define IS(what, number) _Static_assert((what) == (number), #what " isn't " #number)

/* Xen's libraries */
typedef xengnttab_grant_copy_segment_t segment;
IS(sizeof(segment), 24);
IS(offsetof(segment, dest), 8);
IS(offsetof(segment, source.foreign.offset), 4);
IS(offsetof(segment, source.foreign.domid), 6);
IS(offsetof(segment, len), 16);
IS(offsetof(segment, flags), 18);
IS(offsetof(segment, status), 20);
IS(sizeof(xentoollog_logger), 24);
IS(offsetof(xentoollog_logger, vmessage), 0);
IS(offsetof(xentoollog_logger, progress), 8);
IS(offsetof(xentoollog_logger, destroy), 16);
IS(GNTCOPY_source_gref, 1);
IS(GNTCOPY_dest_gref, 2);
IS(GNTST_okay, 0);
IS(GTF_permit_access, 1);
IS(GTF_readonly, 4);
IS(DOMID_SELF, 0x7ff0);
IS(XS_WATCH_PATH, 0);
IS(XS_WATCH_TOKEN, 1);

/* A ring's page */
IS(sizeof(netif_tx_request_t), 12);
IS(sizeof(netif_rx_request_t), 8);
IS(offsetof(netif_tx_sring_t, ring), 64);
IS(offsetof(netif_tx_sring_t, rsp_prod), 8);
IS(NETTXF_more_data, 4);
IS(NETTXF_extra_info, 8);
IS(XEN_NETIF_EXTRA_FLAG_MORE, 1);
IS(XEN_NETIF_EXTRA_TYPE_GSO, 1);
IS(sizeof(struct netif_extra_info), 8);
IS(offsetof(struct netif_extra_info, flags), 1);
IS(offsetof(struct netif_extra_info, u.gso.size), 2);
IS(offsetof(struct netif_extra_info, u.gso.type), 4);

/* Linux */
IS(sizeof(struct ifreq), 40);
IS(sizeof(struct pollfd), 8);
IS(sizeof(sigset_t), 128);
IS(sizeof(struct signalfd_siginfo), 128);
IS(sizeof(struct rlimit), 16);
IS(sizeof(struct __user_cap_header_struct), 8);
IS(sizeof(struct __user_cap_data_struct), 12);
IS(sizeof(struct sock_filter), 8);
IS(sizeof(struct sock_fprog), 16);
IS(sizeof(struct iocb), 64);
IS(offsetof(struct iocb, aio_buf), 24);
IS(offsetof(struct iocb, aio_resfd), 60);
IS(sizeof(struct io_event), 32);
IS(offsetof(struct io_event, res), 16);
IS(sizeof(struct virtio_net_hdr), 10);
IS(offsetof(struct virtio_net_hdr, gso_type), 1);
IS(offsetof(struct virtio_net_hdr, hdr_len), 2);
IS(offsetof(struct virtio_net_hdr, gso_size), 4);
IS(offsetof(struct virtio_net_hdr, csum_start), 6);
IS(offsetof(struct virtio_net_hdr, csum_offset), 8);
IS(VIRTIO_NET_HDR_F_NEEDS_CSUM, 1);
IS(VIRTIO_NET_HDR_GSO_TCPV4, 1);
IS(VIRTIO_NET_HDR_GSO_TCPV6, 4);
IS(VIRTIO_NET_HDR_GSO_ECN, 0x80);
IS(TUNSETIFF, 0x400454ca);
IS(TUNSETPERSIST, 0x400454cb);
IS(TUNSETCARRIER, 0x400454e2);
IS(TUNGETFEATURES, 0x800454cf);
IS(SIOCGIFNAME, 0x8910);
IS(SIOCGIFFLAGS, 0x8913);
IS(SIOCSIFFLAGS, 0x8914);
IS(SIOCSIFMTU, 0x8922);
IS(SIOCSIFNAME, 0x8923);
IS(SIOCSIFHWADDR, 0x8924);
IS(SIOCGIFINDEX, 0x8933);
IS(SIOCSIFTXQLEN, 0x8943);
IS(SIOCBRADDIF, 0x89a2);
IS(IFF_TAP | IFF_NO_PI | IFF_VNET_HDR, 0x5002);
IS(IFF_VNET_HDR, 0x4000);
IS(IFF_MULTI_QUEUE, 0x100);
IS(FIONBIO, 0x5421);
IS(sizeof(struct iovec), 16);
IS(sizeof(struct msghdr), 56);
IS(offsetof(struct msghdr, msg_iov), 16);
IS(offsetof(struct msghdr, msg_control), 32);
IS(offsetof(struct msghdr, msg_flags), 48);
IS(sizeof(struct cmsghdr), 16);
IS(offsetof(struct cmsghdr, cmsg_type), 12);
IS(sizeof(struct timeval), 16);
IS(sizeof(struct timespec), 16);
IS(CLOCK_THREAD_CPUTIME_ID, 3);
IS(AF_UNIX, 1);
IS(SOCK_SEQPACKET, 5);
IS(SOCK_CLOEXEC, 02000000);
IS(SOL_SOCKET, 1);
IS(SO_SNDTIMEO, 21);
IS(SCM_RIGHTS, 1);
IS(MSG_CTRUNC, 0x8);
IS(MSG_TRUNC, 0x20);
IS(MSG_DONTWAIT, 0x40);
IS(MSG_NOSIGNAL, 0x4000);
IS(MSG_CMSG_CLOEXEC, 0x40000000);
IS(LOCK_EX, 2);
IS(LOCK_NB, 4);
IS(SIGCHLD, 17);
IS(SIGBUS, 7);
IS(SIGSEGV, 11);
IS((size_t)SIG_DFL, 0);
IS(IOCTL_GNTDEV_MAP_GRANT_REF, 0x184700);
IS(IOCTL_GNTDEV_UNMAP_GRANT_REF, 0x104701);
IS(IOCTL_GNTDEV_GET_OFFSET_FOR_VADDR, 0x184702);
IS(IOCTL_GNTDEV_GRANT_COPY, 0x104708);
IS(IOCTL_GNTALLOC_ALLOC_GREF, 0x184705);
IS(IOCTL_GNTALLOC_DEALLOC_GREF, 0x104706);
IS(IOCTL_EVTCHN_NOTIFY, 0x44504);
IS(CAP_NET_ADMIN, 12);
IS(RLIMIT_NICE, 13);
IS(RLIMIT_AS, 9);
IS(M_ARENA_MAX, -8);
IS(PROT_READ | PROT_WRITE, 3);
IS(MAP_PRIVATE, 2);
IS(MAP_ANONYMOUS, 0x20);
IS((size_t)MAP_FAILED, SIZE_MAX);
IS(PR_SET_NO_NEW_PRIVS, 38);
IS(PR_CAPBSET_DROP, 24);
IS(PR_SET_NAME, 15);
IS(SECCOMP_MODE_FILTER, 2);
IS(SYS_io_setup, 206);
IS(SYS_io_submit, 209);
IS(SYS_setpriority, 141);
IS(SYS_sched_setscheduler, 144);
