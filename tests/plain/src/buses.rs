//! Buses: bus, publish, subscribe, unsubscribe, read. A value is what was published and still stands on its bus.

use crate::actors::remove_from_list;
use crate::answer::{made, require, Outcome};
use crate::messages::{Message, HEADER};
use crate::pools;
use crate::tables::{Seats, Tables, BUSES, CLOCK, ISSUED, SEATS};
use model::limits::*;
use model::{Copied, Made, DONE, MALFORMED, NOTHING, NO_ROOM, UNKNOWN};

/// The bit of a seat in the upper half of a value's readers, where it may still read it.
fn unread_bit(seat: usize) -> u64 {
    1 << (SEATS + seat)
}

/// The seats in which somebody sits, a bit each, in the upper half of a word.
pub fn audience(seats: &Seats) -> u64 {
    seats.iter().enumerate().fold(0, |all, (seat, &slot)| all | u64::from(slot != 0) << (SEATS + seat))
}

impl Tables<'_> {
    /// The bus of this number.
    fn bus(&self, number: u64) -> Outcome<usize> {
        require(number < self.head[BUSES], UNKNOWN)?;
        Ok(number as usize)
    }

    /// The seat of a slot, stored one up.
    fn seat_of(&self, bus: usize, mine: u64) -> Option<usize> {
        self.buses.seats[bus].iter().position(|&slot| slot == mine)
    }

    /// The places in the row of all values of those of a bus, oldest first.
    fn values_of(&self, bus: usize) -> impl Iterator<Item = usize> + '_ {
        let row = &self.datas.issue[..self.head[ISSUED] as usize];
        let one_up = bus as u64 + 1;
        (0..row.len()).filter(move |&place| self.datas.bus[row[place] as usize - 1] == one_up)
    }

    /// Frees the data entry of a value that has left the row.
    fn free_value(&mut self, data: usize) {
        self.datas.bus[data] = 0;
        self.datas.readers[data] = 0;
        self.datas.published[data] = 0;
        self.free_data(data);
    }

    /// Ends the value at this place of the row.
    fn end_value(&mut self, place: usize) {
        let issued = self.head[ISSUED] as usize;
        let data = self.datas.issue[place] as usize - 1;
        remove_from_list(&mut self.datas.issue[..issued], place);
        self.head[ISSUED] -= 1;
        self.free_value(data);
    }

    /// Gives a seat up: whoever sat there may read nothing of that bus any more.
    fn leave(&mut self, bus: usize, seat: usize) {
        self.buses.seats[bus][seat] = 0;
        let one_up = bus as u64 + 1;
        for (readers, &of) in self.datas.readers.iter_mut().zip(&*self.datas.bus) {
            if of == one_up {
                *readers &= !unread_bit(seat);
            }
        }
    }

    /// Gives up every seat of a slot, stored one up.
    pub fn leave_all(&mut self, mine: u64) {
        for bus in 0..self.head[BUSES] as usize {
            if let Some(seat) = self.seat_of(bus, mine) {
                self.leave(bus, seat);
            }
        }
    }

    /// Has the value in a data entry stood on its bus for its age?
    fn is_aged(&self, data: usize, clock: u64) -> bool {
        let age = self.buses.age[self.datas.bus[data] as usize - 1];
        age != 0 && self.datas.published[data] + 1_000 * age <= clock
    }

    /// Ends all values that have reached their age; the others move up in one pass.
    pub fn end_aged(&mut self, clock: u64) {
        let issued = self.head[ISSUED] as usize;
        let mut kept = 0;
        for place in 0..issued {
            let data = self.datas.issue[place] as usize - 1;
            if self.is_aged(data, clock) {
                self.free_value(data);
            } else {
                self.datas.issue[kept] = data as u64 + 1;
                kept += 1;
            }
        }
        self.datas.issue[kept..issued].fill(0);
        self.head[ISSUED] = kept as u64;
    }
}

/// Are these settings of a bus in range?
pub fn in_range(entries: u64, subscribers: u64, reads: u64, age: u64) -> bool {
    (entries.wrapping_sub(1) < MAX_BUS_ENTRIES)
        & (subscribers.wrapping_sub(1) < MAX_SUBSCRIBERS)
        & (reads <= MAX_READS)
        & (age <= MAX_BUS_AGE)
}

/// Makes the next bus.
pub fn bus(tables: &mut Tables, entries: u64, subscribers: u64, reads: u64, age: u64) -> Outcome<Made> {
    require(in_range(entries, subscribers, reads, age), MALFORMED)?;
    let number = tables.head[BUSES] as usize;
    require(number < MAX_BUSES, NO_ROOM)?;
    let buses = &mut tables.buses;
    (buses.size[number], buses.limit[number]) = (entries, subscribers);
    (buses.reads[number], buses.age[number]) = (reads, age);
    tables.head[BUSES] += 1;
    Ok(made(number as u64))
}

/// A new value; a full bus first ends its oldest.
pub fn publish(tables: &mut Tables, bus: u64, payload: &[u8]) -> Outcome<u64> {
    require(payload.len() <= MAX_PAYLOAD, MALFORMED)?;
    let bus = tables.bus(bus)?;
    let (oldest, count) =
        tables.values_of(bus).fold((0, 0), |(first, count), place| (if count == 0 { place } else { first }, count + 1));
    if count >= tables.buses.size[bus] {
        tables.end_value(oldest);
    }
    let data = pools::lowest(tables.data_free).ok_or(NO_ROOM)?;
    pools::take(tables.data_free, data);
    tables.datas.write(data, &Message { sender: 0, header: 0, payload });
    tables.datas.bus[data] = bus as u64 + 1;
    tables.datas.readers[data] = audience(&tables.buses.seats[bus]);
    tables.datas.published[data] = tables.head[CLOCK];
    tables.datas.issue[tables.head[ISSUED] as usize] = data as u64 + 1;
    tables.head[ISSUED] += 1;
    Ok(DONE)
}

/// Takes the lowest free seat.
pub fn subscribe(tables: &mut Tables, me: usize, bus: u64) -> Outcome<u64> {
    let bus = tables.bus(bus)?;
    require(tables.seat_of(bus, me as u64 + 1).is_none(), MALFORMED)?;
    let limit = tables.buses.limit[bus] as usize;
    let seats = &mut tables.buses.seats[bus];
    let seat = seats.iter().position(|&slot| slot == 0).filter(|&seat| seat < limit).ok_or(NO_ROOM)?;
    seats[seat] = me as u64 + 1;
    Ok(DONE)
}

pub fn unsubscribe(tables: &mut Tables, me: usize, bus: u64) -> Outcome<u64> {
    let bus = tables.bus(bus)?;
    let seat = tables.seat_of(bus, me as u64 + 1).ok_or(UNKNOWN)?;
    tables.leave(bus, seat);
    Ok(DONE)
}

/// Copies the oldest value that the caller may still read to a slice; the value ends where it has been read often enough.
pub fn read(tables: &mut Tables, me: usize, bus: u64, out: &mut [u8]) -> Outcome<Copied> {
    let bus = tables.bus(bus)?;
    let seat = tables.seat_of(bus, me as u64 + 1).ok_or(UNKNOWN)?;
    let data_at = |place: usize| tables.datas.issue[place] as usize - 1;
    let unread = |place: &usize| tables.datas.readers[data_at(*place)] & unread_bit(seat) != 0;
    let place = tables.values_of(bus).find(unread).ok_or(NOTHING)?;
    let data = data_at(place);
    let length = tables.datas.length[data] as usize;
    require(length <= out.len(), MALFORMED)?;
    out[..length].copy_from_slice(&tables.datas.entries[data][HEADER..HEADER + length]);
    let readers = tables.datas.readers[data] & !unread_bit(seat) | 1 << seat;
    tables.datas.readers[data] = readers;
    let most = tables.buses.reads[bus];
    if most != 0 && u64::from((readers as u32).count_ones()) >= most {
        tables.end_value(place);
    }
    Ok(Copied { no: DONE, length: length as u64 })
}
