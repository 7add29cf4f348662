"""Names of services and protocols as OpenBSD has them in /etc/services and /etc/protocols: a list of our own, not the
machine's.

A name of a protocol that systems number differently, or that is not known of OpenBSD, is not in it: such a text is
refused by that name. `ipip` is 94, as in protocols(5); 4 is `ipencap`.
"""

_SERVICES = """
tcpmux 1 echo 7 discard 9 sink 9 null 9 systat 11 users 11 daytime 13 netstat 15 qotd 17 quote 17 chargen 19 ttytst 19
source 19 ftp-data 20 ftp 21 ssh 22 telnet 23 smtp 25 mail 25 time 37 timserver 37 rlp 39 nameserver 42 whois 43
nicname 43 tacacs 49 re-mail-ck 50 domain 53 nameserver 42 mtp 57 bootps 67 bootpc 68 tftp 69 gopher 70 rje 77 finger 79
http 80 www 80 www-http 80 link 87 ttylink 87 kerberos 88 kerberos5 88 krb5 88 kerberos-sec 88 supdup 95 hostnames 101
hostname 101 iso-tsap 102 tsap 102 csnet-ns 105 cso-ns 105 rtelnet 107 pop2 109 postoffice 109 pop3 110 sunrpc 111
portmap 111 rpcbind 111 auth 113 authentication 113 ident 113 tap 113 sftp 115 uucp-path 117 nntp 119 readnews 119
untp 119 ntp 123 netbios-ns 137 netbios-dgm 138 netbios-ssn 139 imap 143 imap2 143 sql-net 150 bootp-dhcp 67 snmp 161
snmp-trap 162 snmptrap 162 cmip-man 163 cmip-agent 164 mailq 174 xdmcp 177 nextstep 178 bgp 179 prospero 191 irc 194
smux 199 at-rtmp 201 at-nbp 202 at-echo 204 at-zis 206 qmtp 209 z3950 210 wais 210 ipx 213 imap3 220 bgmp 264 pt-tls 271
ulistserv 372 ldap 389 svrloc 427 mobileip-agent 434 https 443 snpp 444 microsoft-ds 445 kpasswd 464 kpasswd5 464
submissions 465 smtps 465 ssmtp 465 photuris 468 saft 487 pim-rp-disc 496 isakmp 500 ike 500 exec 512 biff 512
comsat 512 login 513 who 513 whod 513 shell 514 cmd 514 syslog 514 printer 515 spooler 515 talk 517 ntalk 518 utime 519
unixtime 519 efs 520 router 520 route 520 routed 520 ripng 521 timed 525 timeserver 525 tempo 526 newdate 526
courier 530 rpc 530 conference 531 chat 531 netnews 532 netwall 533 gdomap 538 uucp 540 uucpd 540 klogin 543 kshell 544
krcmd 544 dhcpv6-client 546 dhcpv6-server 547 appleshare 548 afpovertcp 548 rtsp 554 remotefs 556 rfs 556 rfs_server 556
nntps 563 snews 563 whoami 565 submission 587 msa 587 http-rpc-epmap 593 ipp 631 ldaps 636 ldp 646 dhcp-failover 647
rrp 648 ieee-mms-ssl 695 silc 706 kerberos-adm 749 kerberos-iv 750 kdc 750 kerberos4 750 kerberos_master 751
krbupdate 760 kreg 760 kpasswd-iv 761 webster 765 supfilesrv 871 rsync 873 ftps-data 989 ftps 990 telnets 992 imaps 993
ircs 994 pop3s 995 kpop 1109 supfiledbg 1127 skkserv 1178 openvpn 1194 socks 1080 rmiregistry 1099 lotusnote 1352
ms-sql-s 1433 ms-sql-m 1434 ingreslock 1524 prospero-np 1525 datametrics 1645 sa-msg-port 1646 kermit 1649 l2tp 1701
h323hostcall 1720 pptp 1723 radius 1812 radacct 1813 radius-acct 1813 mobile-ip 434 hsrp 1985 ssdp 1900 cisco-sccp 2000
callbook 2000 nfsd 2049 nfs 2049 eyetv 2170 cvspserver 2401 cvsup 5999 venus 2430 venus-se 2431 codasrv 2432
codasrv-se 2433 afbackup 2988 zarkov 2989 squid 3128 mysql 3306 rdp 3389 distcc 3632 svn 3690 gamsoft 4000 epmd 4369
f5-globalsite 2792 f5-iquery 4353 ipsec-msft 4500 ipsec-nat-t 4500 krb524 4444 vxlan 4789 rfe 5002 iperf 5001 sip 5060
sips 5061 sip-tls 5061 xmpp-client 5222 xmpp-server 5269 cfengine 5308 mdns 5353 postgresql 5432 rplay 5555 amqp 5672
amqps 5671 vnc 5900 x11 6000 x11-1 6001 x11-ssh 6010 ircd 6667 ircs-u 6697 bbs 7000 afs3-fileserver 7000
afs3-callback 7001 afs3-prserver 7002 afs3-vlserver 7003 afs3-kaserver 7004 afs3-volser 7005 afs3-errors 7006
afs3-bos 7007 afs3-update 7008 afs3-rmtsys 7009 font-service 7100 http-alt 8080 webcache 8080 spamd 8025 spamd-sync 8025
spamd-cfg 8026 snmp-agentx 705 hkp 11371 bprd 13720 bpdbm 13721 nagios 5666 nrpe 5666 zabbix-agent 10050
zabbix-trapper 10051 isakmp-nat-t 4500 kamanda 10081 amandaidx 10082 amidxtape 10083 dhcpd-sync 8067 iscsi 860
iscsi-target 3260 bgpd 179 fido 60179 wnn4 22273 jserver 22273 canna 5680 rtcm-sc104 2101 hunt 26740 git 9418 sane 6566
memcache 11211 memcached 11211 redis 6379 quake 26000 syslog-tls 6514 ldp-tcp 646 netbios_ns 137 netbios_dgm 138
netbios_ssn 139 msp 18 gss-http 488 aurp 387 hp-managed-node 382 openpgp-hkp 11371 dict 2628 bacula-dir 9101
bacula-fd 9102 bacula-sd 9103 tproxy 8081 upnp 5000 nut 3493 ntske 4460 domain-s 853 rpki-rtr 323 rpki-rtr-tls 324
ptp-event 319 ptp-general 320 vemmi 575 dantz 497 timbuktu 407 rip 520 gnunet 2086 bfd-control 3784 bfd-echo 3785
bfd-multi-ctl 4784
"""
_PROTOCOLS = """
ip 0 hopopt 0 icmp 1 igmp 2 ggp 3 ipencap 4 st2 5 st 5 tcp 6 cbt 7 egp 8 igp 9 bbn-rcc 10 nvp 11 pup 12 argus 13
emcon 14 xnet 15 chaos 16 udp 17 mux 18 dcn 19 hmp 20 prm 21 xns-idp 22 trunk-1 23 trunk-2 24 leaf-1 25 leaf-2 26 rdp 27
irtp 28 iso-tp4 29 netblt 30 mfe-nsp 31 merit-inp 32 dccp 33 sep 33 3pc 34 idpr 35 xtp 36 ddp 37 idpr-cmtp 38 tp++ 39
il 40 ipv6 41 sdrp 42 ipv6-route 43 ipv6-frag 44 idrp 45 rsvp 46 gre 47 mhrp 48 dsr 48 bna 49 esp 50 ipv6-crypt 50
ipsp-esp 50 ah 51 ipv6-auth 51 i-nlsp 52 swipe 53 narp 54 mobile 55 mobileip 55 tlsp 56 skip 57 icmp6 58 ipv6-icmp 58
ipv6-nonxt 59 ipv6-opts 60 cftp 62 sat-expak 64 kryptolan 65 rvd 66 ippc 67 sat-mon 69 visa 70 ipcv 71 cpnx 72 cphb 73
wsn 74 pvp 75 br-sat-mon 76 sun-nd 77 wb-mon 78 wb-expak 79 iso-ip 80 vmtp 81 secure-vmtp 82 vines 83 ttp 84
nsfnet-igp 85 dgp 86 tcf 87 eigrp 88 ospf 89 ospfigp 89 sprite-rpc 90 larp 91 mtp 92 ax.25 93 ipip 94 micp 95 scc-sp 96
etherip 97 encap 98 gmtp 100 ifmp 101 pnni 102 pim 103 aris 104 scps 105 qnx 106 a/n 107 ipcomp 108 snp 109
compaq-peer 110 ipx-in-ip 111 carp 112 vrrp 112 pgm 113 l2tp 115 ddx 116 iatp 117 stp 118 srp 119 uti 120 smp 121 sm 122
ptp 123 isis 124 fire 125 crtp 126 crdup 127 sscopmce 128 iplt 129 sps 130 pipe 131 sctp 132 fc 133 rsvp-e2e-ignore 134
mobility-header 135 udplite 136 mpls-in-ip 137 mpls 137 manet 138 shim6 140 wesp 141 rohc 142 pfsync 240
"""


def _numbers(text: str) -> dict[str, int]:
    words = text.split()
    return dict(zip(words[::2], map(int, words[1::2]), strict=True))


SERVICES = _numbers(_SERVICES)
PROTOCOLS = _numbers(_PROTOCOLS)
TCP, UDP, ICMP, ICMP6 = 6, 17, 1, 58
_SHOWN = {1: "icmp", 6: "tcp", 17: "udp", 47: "gre", 50: "esp", 51: "ah", 58: "icmp6"}


def port_of(text: str) -> int | None:
    """The number of a port, 0 to 65535, or of a service; None where it is neither."""
    if text.isdecimal() and text.isascii():
        return int(text) if len(text) < 11 and int(text) <= 65535 else None
    return SERVICES.get(text)


def protocol_of(text: str) -> int | None:
    """The number of a protocol, 0 to 255, by its name or its digits; None where it is neither."""
    if text.isdecimal() and text.isascii():
        return int(text) if len(text) < 11 and int(text) <= 255 else None
    number = PROTOCOLS.get(text)
    return None if number is None or number > 255 else number


def shown_protocol(number: int) -> str:
    """A protocol as a rules text of pfsrc writes it."""
    return _SHOWN.get(number, str(number))
