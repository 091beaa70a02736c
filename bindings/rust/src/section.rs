/// The kind of a program, by its section's name.
#[derive(Clone, Copy, Debug, PartialEq, Eq)]
pub enum ProgramSection {
    /// `kretprobe`
    KRetProbe,
    /// `kprobe`
    KProbe,
    /// `uprobe`, with `.multi` and `.s`
    UProbe { sleepable: bool, multi: bool },
    /// `uretprobe`, with `.multi` and `.s`
    URetProbe { sleepable: bool, multi: bool },
    /// `tracepoint` or `tp`
    TracePoint,
    /// `socket`
    SocketFilter,
    /// `xdp`, with `.frags`; then nothing, `cpumap` or `devmap`
    Xdp {
        frags: bool,
        attach_type: XdpAttachType,
    },
    /// `sk_msg`
    SkMsg,
    /// `sk_skb/stream_parser` or `sk_skb/stream_verdict`
    SkSkbStream { kind: SkSkbKind },
    /// `sockops`
    SockOps,
    /// `classifier`
    SchedClassifier,
    /// `cgroup_skb/ingress`, `cgroup_skb/egress`, or `cgroup/skb` for neither
    CgroupSkb {
        attach_type: Option<CgroupSkbAttachType>,
    },
    /// `cgroup/bind4` and its like
    CgroupSockAddr {
        attach_type: CgroupSockAddrAttachType,
    },
    /// `cgroup/sysctl`
    CgroupSysctl,
    /// `cgroup/getsockopt` or `cgroup/setsockopt`
    CgroupSockopt {
        attach_type: CgroupSockoptAttachType,
    },
    /// `lirc_mode2`
    LircMode2,
    /// `perf_event`
    PerfEvent,
    /// `raw_tp` or `raw_tracepoint`
    RawTracePoint,
    /// `lsm`, with `.s`
    Lsm { sleepable: bool },
    /// `lsm_cgroup`
    LsmCgroup,
    /// `tp_btf`
    BtfTracePoint,
    /// `fentry`, with `.s`
    FEntry { sleepable: bool },
    /// `fexit`, with `.s`
    FExit { sleepable: bool },
    /// `flow_dissector`
    FlowDissector,
    /// `freplace`
    Extension,
    /// `sk_lookup`
    SkLookup,
    /// `sk_reuseport`, then nothing or `migrate`
    SkReuseport { attach_type: SkReuseportAttachType },
    /// `cgroup/sock_create` and its like; `cgroup/sock` for the default
    CgroupSock { attach_type: CgroupSockAttachType },
    /// `cgroup/dev`
    CgroupDevice,
    /// `iter`, with `.s`
    Iter { sleepable: bool },
}

/// Where an XDP program is attached, by the kernel's number.
#[derive(Clone, Copy, Debug, PartialEq, Eq)]
pub enum XdpAttachType {
    /// To a network interface.
    Interface = 37,
    /// To a CPU map.
    CpuMap = 35,
    /// To a device map.
    DevMap = 33,
}

/// What a program of a socket map does with a stream, by the kernel's number.
#[derive(Clone, Copy, Debug, PartialEq, Eq)]
pub enum SkSkbKind {
    /// It finds where messages end.
    StreamParser = 4,
    /// It decides where messages go.
    StreamVerdict = 5,
}

/// Which choices of a socket a `SO_REUSEPORT` program makes, by the kernel's number.
#[derive(Clone, Copy, Debug, PartialEq, Eq)]
pub enum SkReuseportAttachType {
    /// For new connections.
    Select = 39,
    /// For new connections, and for those that migrate from a closed socket.
    SelectOrMigrate = 40,
}

/// Which way the packets of a control group go, by the kernel's number.
#[derive(Clone, Copy, Debug, PartialEq, Eq)]
pub enum CgroupSkbAttachType {
    /// Packets that come in.
    Ingress = 0,
    /// Packets that go out.
    Egress = 1,
}

/// Which call on a socket's options a program of a control group sees, by the kernel's number.
#[derive(Clone, Copy, Debug, PartialEq, Eq)]
pub enum CgroupSockoptAttachType {
    /// `getsockopt`
    Get = 21,
    /// `setsockopt`
    Set = 22,
}

/// Which event of a socket a program of a control group sees, by the kernel's number.
#[derive(Clone, Copy, Debug, PartialEq, Eq)]
pub enum CgroupSockAttachType {
    /// After it is bound to an IPv4 address.
    PostBind4 = 12,
    /// After it is bound to an IPv6 address.
    PostBind6 = 13,
    /// When it is made.
    SockCreate = 2,
    /// When it is released.
    SockRelease = 34,
}

/// Which call with a socket's address a program of a control group sees, by the kernel's number.
#[derive(Clone, Copy, Debug, PartialEq, Eq)]
pub enum CgroupSockAddrAttachType {
    /// `bind` to an IPv4 address.
    Bind4 = 8,
    /// `bind` to an IPv6 address.
    Bind6 = 9,
    /// `connect` to an IPv4 address.
    Connect4 = 10,
    /// `connect` to an IPv6 address.
    Connect6 = 11,
    /// `getpeername` of an IPv4 socket.
    GetPeerName4 = 29,
    /// `getpeername` of an IPv6 socket.
    GetPeerName6 = 30,
    /// `getsockname` of an IPv4 socket.
    GetSockName4 = 31,
    /// `getsockname` of an IPv6 socket.
    GetSockName6 = 32,
    /// `sendmsg` of a UDP socket over IPv4.
    UDPSendMsg4 = 14,
    /// `sendmsg` of a UDP socket over IPv6.
    UDPSendMsg6 = 15,
    /// `recvmsg` of a UDP socket over IPv4.
    UDPRecvMsg4 = 19,
    /// `recvmsg` of a UDP socket over IPv6.
    UDPRecvMsg6 = 20,
}

/// The attributes of `BPF_PROG_LOAD` that depend on a program's kind.
#[derive(Clone, Copy, Debug, PartialEq, Eq)]
pub struct LoadAttributes {
    /// `prog_type`, a number of the kernel's `enum bpf_prog_type`
    pub prog_type: u32,
    /// `expected_attach_type`, a number of the kernel's `enum bpf_attach_type`; where there is none
    /// a loader passes 0.
    pub expected_attach_type: Option<u32>,
    /// `prog_flags`
    pub flags: u32,
}

const BPF_F_SLEEPABLE: u32 = 16;
const BPF_F_XDP_HAS_FRAGS: u32 = 32;

fn flag(number: u8) -> Option<bool> {
    match number {
        0 => Some(false),
        1 => Some(true),
        _ => None,
    }
}

impl ProgramSection {
    /// The kind that three numbers of a plan's text stand for (docs/FORMATS.md, "The text of a
    /// plan").
    pub(crate) fn from_numbers(kind: u8, first: u8, second: u8) -> Option<ProgramSection> {
        use {CgroupSockAddrAttachType as Addr, CgroupSockAttachType as Sock, ProgramSection::*};
        let place = usize::from(first);
        Some(match (kind, first, second) {
            (0, 0, 0) => KRetProbe,
            (1, 0, 0) => KProbe,
            (2, _, _) => UProbe {
                sleepable: flag(first)?,
                multi: flag(second)?,
            },
            (3, _, _) => URetProbe {
                sleepable: flag(first)?,
                multi: flag(second)?,
            },
            (4, 0, 0) => TracePoint,
            (5, 0, 0) => SocketFilter,
            (6, _, _) => Xdp {
                frags: flag(first)?,
                attach_type: match second {
                    0 => XdpAttachType::Interface,
                    1 => XdpAttachType::CpuMap,
                    2 => XdpAttachType::DevMap,
                    _ => return None,
                },
            },
            (7, 0, 0) => SkMsg,
            (8, 0, 0) => SkSkbStream {
                kind: SkSkbKind::StreamParser,
            },
            (8, 1, 0) => SkSkbStream {
                kind: SkSkbKind::StreamVerdict,
            },
            (9, 0, 0) => SockOps,
            (10, 0, 0) => SchedClassifier,
            (11, 0, 0) => CgroupSkb { attach_type: None },
            (11, 1, 0) => CgroupSkb {
                attach_type: Some(CgroupSkbAttachType::Ingress),
            },
            (11, 2, 0) => CgroupSkb {
                attach_type: Some(CgroupSkbAttachType::Egress),
            },
            (12, _, 0) => CgroupSockAddr {
                attach_type: *[
                    Addr::Bind4,
                    Addr::Bind6,
                    Addr::Connect4,
                    Addr::Connect6,
                    Addr::GetPeerName4,
                    Addr::GetPeerName6,
                    Addr::GetSockName4,
                    Addr::GetSockName6,
                    Addr::UDPSendMsg4,
                    Addr::UDPSendMsg6,
                    Addr::UDPRecvMsg4,
                    Addr::UDPRecvMsg6,
                ]
                .get(place)?,
            },
            (13, 0, 0) => CgroupSysctl,
            (14, 0, 0) => CgroupSockopt {
                attach_type: CgroupSockoptAttachType::Get,
            },
            (14, 1, 0) => CgroupSockopt {
                attach_type: CgroupSockoptAttachType::Set,
            },
            (15, 0, 0) => LircMode2,
            (16, 0, 0) => PerfEvent,
            (17, 0, 0) => RawTracePoint,
            (18, _, 0) => Lsm {
                sleepable: flag(first)?,
            },
            (19, 0, 0) => LsmCgroup,
            (20, 0, 0) => BtfTracePoint,
            (21, _, 0) => FEntry {
                sleepable: flag(first)?,
            },
            (22, _, 0) => FExit {
                sleepable: flag(first)?,
            },
            (23, 0, 0) => FlowDissector,
            (24, 0, 0) => Extension,
            (25, 0, 0) => SkLookup,
            (26, 0, 0) => SkReuseport {
                attach_type: SkReuseportAttachType::Select,
            },
            (26, 1, 0) => SkReuseport {
                attach_type: SkReuseportAttachType::SelectOrMigrate,
            },
            (27, _, 0) => CgroupSock {
                attach_type: *[
                    Sock::PostBind4,
                    Sock::PostBind6,
                    Sock::SockCreate,
                    Sock::SockRelease,
                ]
                .get(place)?,
            },
            (28, 0, 0) => CgroupDevice,
            (29, _, 0) => Iter {
                sleepable: flag(first)?,
            },
            _ => return None,
        })
    }

    /// The attributes of a program of this kind, by the kernel's `bpf.h` and libbpf's
    /// `section_defs`.
    pub fn load_attributes(&self) -> LoadAttributes {
        use ProgramSection::*;
        let (prog_type, expected_attach_type) = match *self {
            KRetProbe | KProbe => (2, None),
            UProbe { multi, .. } | URetProbe { multi, .. } => (2, multi.then_some(48)),
            TracePoint => (5, None),
            SocketFilter => (1, None),
            Xdp { attach_type, .. } => (6, Some(attach_type as u32)),
            SkMsg => (16, Some(7)),
            SkSkbStream { kind } => (14, Some(kind as u32)),
            SockOps => (13, Some(3)),
            SchedClassifier => (3, None),
            CgroupSkb { attach_type } => (8, attach_type.map(|way| way as u32)),
            CgroupSockAddr { attach_type } => (18, Some(attach_type as u32)),
            CgroupSysctl => (23, Some(18)),
            CgroupSockopt { attach_type } => (25, Some(attach_type as u32)),
            LircMode2 => (20, Some(16)),
            PerfEvent => (7, None),
            RawTracePoint => (17, None),
            Lsm { .. } => (29, Some(27)),
            LsmCgroup => (29, Some(43)),
            BtfTracePoint => (26, Some(23)),
            FEntry { .. } => (26, Some(24)),
            FExit { .. } => (26, Some(25)),
            FlowDissector => (22, Some(17)),
            Extension => (28, None),
            SkLookup => (30, Some(36)),
            SkReuseport { attach_type } => (21, Some(attach_type as u32)),
            CgroupSock { attach_type } => (9, Some(attach_type as u32)),
            CgroupDevice => (15, Some(6)),
            Iter { .. } => (26, Some(28)),
        };
        LoadAttributes {
            prog_type,
            expected_attach_type,
            flags: self.flags(),
        }
    }

    fn flags(&self) -> u32 {
        use ProgramSection::*;
        match *self {
            UProbe { sleepable, .. } | URetProbe { sleepable, .. } if sleepable => BPF_F_SLEEPABLE,
            Lsm { sleepable } | FEntry { sleepable } | FExit { sleepable } if sleepable => {
                BPF_F_SLEEPABLE
            }
            Iter { sleepable: true } => BPF_F_SLEEPABLE,
            Xdp { frags: true, .. } => BPF_F_XDP_HAS_FRAGS,
            _ => 0,
        }
    }
}
