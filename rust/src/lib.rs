// These links lead from names in README.md to their pages. README.md has its own definitions of the
// names, but rustdoc uses the first definition of a link.
//! [`agent`]: mod@agent
//! [`auth`]: mod@auth
//! [`endpoint`]: mod@endpoint
//! [`endpoint::Client`]: endpoint::Client
//! [`endpoint::FrameBuffer`]: endpoint::FrameBuffer
//! [`endpoint::Input::NotOurs`]: endpoint::Input::NotOurs
//! [`endpoint::OpenServer`]: endpoint::OpenServer
//! [`endpoint::Reply`]: endpoint::Reply
//! [`endpoint::Server`]: endpoint::Server
//! [`endpoint::ServerBuilder`]: endpoint::ServerBuilder
//! [`endpoint::ShortTermServer`]: endpoint::ShortTermServer
//! [`endpoint::ice`]: mod@endpoint::ice
//! [`endpoint::ice::Candidate`]: endpoint::ice::Candidate
//! [`endpoint::ice::MdnsCandidate`]: endpoint::ice::MdnsCandidate
//! [`endpoint::ice::Check`]: endpoint::ice::Check
//! [`endpoint::ice::Checker`]: endpoint::ice::Checker
//! [`endpoint::ice::Checks`]: endpoint::ice::Checks
//! [`endpoint::ice::Consent`]: endpoint::ice::Consent
//! [`endpoint::ice::pair_priority`]: endpoint::ice::pair_priority
//! [`endpoint::ice::priority`]: endpoint::ice::priority
//! [`extra::turn`]: mod@extra::turn
//! [`extra::turn::ChannelData`]: extra::turn::ChannelData
//! [`extra::turn::Packet`]: extra::turn::Packet
//! [`extra::turn::send_indication`]: extra::turn::send_indication
//! [`endpoint::Body::add_xor_peer_address`]: endpoint::Body::add_xor_peer_address
//! [`endpoint::RequestOptions`]: endpoint::RequestOptions
//! [`extra::attribute::ChannelNumber`]: extra::attribute::ChannelNumber
//! [`extra::attribute::Data`]: extra::attribute::Data
//! [`extra::attribute::Lifetime`]: extra::attribute::Lifetime
//! [`types`]: mod@types
//!
#![cfg_attr(all(feature = "std", feature = "rand"), doc = include_str!("../README.md"))]
#![cfg_attr(not(all(feature = "std", feature = "rand")), doc = "Sans-I/O STUN (RFC 8489).")]
//!
//! # Modules
//!
//! | Module | What it is for |
//! |---|---|
//! | [`types`] | parsing, verifying, building and signing messages |
//! | [`agent`] | sending requests, retransmitting them and matching their responses |
//! | [`auth`] | authenticating both sides with short-term or long-term credentials |
//! | [`endpoint`] | servers, clients and ICE agents: pass what arrives, and send what they return |
//! | [`extra`] | FINGERPRINT, unknown attributes, framing over TCP, attributes of ICE and TURN |
//! | [`stats`] | what an agent has counted |
//!
//! Times are of the type [`Instant`], but an [`endpoint::Server`] takes an [`endpoint::UnixTime`].
//! Only `UnixTime::now`, `Instant::from_std` and `endpoint::Clock` read a clock.
//!
//! # Events
//!
//! With the feature `tracing`, the crate records events of the crate `tracing` with the level DEBUG
//! and the target `seatcrane_stun`. The events contain addresses, transaction IDs and numbers of
//! requests, but no user name, password, key, nonce or other content of a message.
//!
//! | Event | Recorded when | Fields |
//! |---|---|---|
//! | `received` | a server, a client or an ICE agent of [`endpoint`] has judged a datagram, once for each call | `id`, `from`, `verdict`, `code`, `reason` |
//! | `sent a request`, `sent a request again` | [`endpoint::Client::poll`], [`agent::StunAgent::send_request`] or `poll_transmit` returns the bytes of a request | `id`, `request` (of a client), `to`, `bytes` |
//! | `a request ended` | [`endpoint::Client::poll`] returns how a request ended | `request`, `result`: `success`, or the error as text |
//! | `wrote a check` | [`endpoint::ice::Checker::check`] has written a check | `id`, `to`, `nominates` |
//! | `judged` | an authenticator of [`auth`] has judged a message | `id`, `class`, `verdict` |
//! | `got a message` | an [`agent::StunAgent`] has processed a message | `id`, `from`, `is_accepted` |
//! | `a request timed out`, `a request was canceled` | [`agent::StunAgent::poll`] reports that a request ended in this way | `id` |
//!
//! The event `received` has one of these verdicts. It has no `id` if the datagram has no STUN
//! header.
//!
//! | Verdict | Recorded by | Meaning |
//! |---|---|---|
//! | *answered* | servers | the server wrote a success response |
//! | *refused* | servers, ICE agents | the answer is an error with this `code`; `reason` is the name of the [`endpoint::Cause`], or the reason phrase if the server has no causes |
//! | *accepted* | all | a request or a check is accepted; or a response takes effect (at a client, it may be an error or a challenge with this `code`) |
//! | *look-up* | [`endpoint::Server::identify`] | the request waits for its user, and [`endpoint::Server::resume`] records the verdict |
//! | *valid*, *failed* | ICE agents | the answer ended the check in this way; `reason` is the name of the [`endpoint::ice::Failure`] |
//! | *indication* | all | the message is for the caller |
//! | *response* | servers | the message is for a client on the same socket |
//! | *not ours* | clients | the datagram may be for another client on the socket |
//! | *dropped* | all | `reason` is the name of the [`endpoint::DropReason`] or [`endpoint::ice::DropReason`] |
//!
//! To find the cause of a refusal, the server judges the request again, so a refusal takes twice as
//! long while a subscriber records these events. The calls that return the cause, such as
//! [`endpoint::Server::receive_with_cause`], judge it once.
#![no_std]
#![cfg_attr(docsrs, feature(doc_cfg))]
#![forbid(unsafe_code)]
#![deny(missing_docs)]
#![cfg_attr(not(test), warn(clippy::pedantic))]

extern crate alloc;
#[cfg(feature = "std")]
extern crate std;

pub mod agent;
mod address;
mod attributes;
pub mod auth;
mod bytes;
mod copies;
mod credentials;
// The public modules export only a part of `exported`, so the rest is unused.
#[allow(dead_code, unused_imports)]
mod exported;
pub mod endpoint;
pub mod extra;
mod family;
mod flag;
mod hashes;
mod instant;
mod keys;
#[allow(dead_code, unused_imports)]
#[allow(clippy::missing_errors_doc, reason = "each error is that an allocation failed")]
#[allow(clippy::unused_self, reason = "the calls are those of other crates")]
mod kit;
mod message;
mod names;
mod newtype;
mod nonce;
mod number;
mod ported;
mod random;
// For tests that compare the crate with the proved sources.
#[doc(hidden)]
pub mod replay;
pub mod stats;
mod text;
mod trace;
mod transaction;
mod transmit;
mod turn;
pub mod types;
mod write;

pub use exported::stun_base::instant::Instant;

/// An empty module, like `prelude` of the crate `stun-proto`. The traits of attributes and writers
/// are in [`types::prelude`].
pub mod prelude {}
