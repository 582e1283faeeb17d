//! What the calls are given.
//!
//! - [`rng`]: random numbers;
//! - [`sample`], [`mix`], [`damage`], [`families`]: tables that are right, how often each kind comes in
//!   them, ways to spoil them, and families of both;
//! - [`contended`], [`walk`], [`entries`]: tables made for stepping, accepted schedules, and
//!   schedules with a refused entry;
//! - [`interleave`]: from one schedule to another with the same steps;
//! - [`steps`], [`twins`]: tables with one schedule or with two; [`opposed`]: those with two that differ first
//!   at a given pair; [`recordings`]: those with two that need not end together; [`deep`]: those with full
//!   queues; [`notes`]: those whose journal grows; [`locks`]: those whose actors lock a mutex more than once;
//!   [`digits`]: those whose cells hold numbers of every length; [`totals`]: those whose sums come to the most
//!   that a cell holds;
//! - [`sites`], [`seeds`]: tables of every family, and seeds, for the calls that make a schedule;
//! - [`buffers`]: lent buffers.

pub mod buffers;
pub mod contended;
pub mod damage;
pub mod deep;
pub mod digits;
pub mod entries;
pub mod families;
pub mod interleave;
pub mod locks;
pub mod mix;
pub mod notes;
pub mod opposed;
pub mod recordings;
pub mod rng;
pub mod sample;
pub mod seeds;
pub mod sites;
pub mod steps;
pub mod totals;
pub mod twins;
pub mod walk;
