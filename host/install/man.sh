#!/bin/sh
# Prints the man page of the tool:  man.sh VERSION
#
# What `relay --help` says stands in it as it is (src/bin/relay/help.txt), so that the two never differ.
set -eu
version=$1
cd "$(dirname "$0")"
cat <<PAGE
.TH RELAY 1 "" "relay $version" "User commands"
.SH NAME
relay \- a relay network as plain text, run by the proved engine
.SH SYNOPSIS
.B relay
[OPTION] [SCRIPT]
.br
.B relay
COMMAND ARGUMENT...
.SH DESCRIPTION
A relay passes messages between desks by flooding to neighbours. This tool runs such a network line by line: desks join and leave,
messages are produced and forwarded, and everything that changes the network is done by an engine that is proved to follow its rules.
A refused event is said in words, with its line, number and place.
.PP
What the tool itself prints as its help:
.PP
.nf
PAGE
sed "s/\\\\/\\\\e/g; s/-/\\\\-/g; s/^\\([.']\\)/\\\\\&\\1/" ../src/bin/relay/help.txt
cat <<'PAGE'
.fi
.SH EXAMPLE
Desk 0 publishes topic 0, desk 1 subscribes to it and is linked to desk 0; message 5 is produced and forwarded until nothing is pending:
.PP
.nf
join 0 pubs 0
join 1 subs 0 neighbours 0
produce 0 5
drain
show
.fi
.SH NOTES
A C program takes the engine by
.BR "pkg\-config \-\-cflags \-\-libs relay" ;
the header relay.h says what a caller owes. The library is x86\-64 code.
PAGE
