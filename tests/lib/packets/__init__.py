"""Packets a second time, written from ICS 4 and ibc-go; it shares nothing with the crate rb_packets.

`chains` has chains that send, receive, acknowledge and time out packets as ibc-go does, whose light clients judge each proof; `cases` makes
cases of messages: right ones, which the chains have to take, and wrong or damaged ones."""
