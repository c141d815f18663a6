//! The judge of a log, and refusals 14, 11 and 12: records tested eight at a time by two tables, clocks of eight threads in one vector, the last
//! write of a place as one thread's clock.

use super::refusal;
use std::arch::x86_64::*;
use std::mem::MaybeUninit;

const FIELD: u32 = 31 << 7;
const VALUE: u32 = 31 << 2;

/// For each kind the bits of a record that must be 0: its spare bits, and those of columns without a use or past their numbers.
const ZERO: [u32; 16] = {
    let (mut masks, mut kind) = ([u32::MAX; 16], 1);
    while kind < 12 {
        masks[kind] = 3 | match kind {
            1 | 6 | 7 => FIELD | VALUE,
            8 => 24 << 7 | VALUE,
            9 => 24 << 7,
            10 => VALUE,
            _ => 0,
        };
        kind += 1;
    }
    masks
};

/// For each kind the bits of which one must be set: those of a column that must not be 0; a bit that is set in all, past the record's own, where
/// nothing must be; none for kind 0, which is never right.
const SET: [u32; 16] = {
    let (mut masks, mut kind) = ([0; 16], 1);
    while kind < 16 {
        masks[kind] = if matches!(kind, 2..=5 | 10 | 11) { FIELD } else { PAST };
        kind += 1;
    }
    masks
};

const PAST: u32 = 1 << 24;

/// A record below the count.
#[inline(always)]
fn record(log: &[u8], i: usize) -> u32 {
    // SAFETY: the caller's count is a third of the log's length.
    let at = unsafe { log.get_unchecked(3 * i..3 * i + 3) };
    u32::from(at[0]) << 16 | u32::from(at[1]) << 8 | u32::from(at[2])
}

fn wrong(log: &[u8], i: usize) -> bool {
    let (bits, last) = (record(log, i), 3 * i + 3 == log.len());
    let kind = (bits >> 20) as usize;
    bits & ZERO[kind] != 0 || (bits | PAST) & SET[kind] == 0 || kind >= 10 && !last
}

/// Whether one of eight records is wrong, none of them the last; thirty-two bytes are read.
#[cfg(target_feature = "avx2")]
#[inline(always)]
unsafe fn some_wrong(log: *const u8) -> bool {
    let bytes = _mm256_permutevar8x32_epi32(_mm256_loadu_si256(log.cast()), _mm256_setr_epi32(0, 1, 2, 0, 3, 4, 5, 0));
    let places = _mm256_broadcastsi128_si256(_mm_setr_epi8(2, 1, 0, -1, 5, 4, 3, -1, 8, 7, 6, -1, 11, 10, 9, -1));
    let bits = _mm256_shuffle_epi8(bytes, places);
    let kinds = _mm256_srli_epi32(bits, 20);
    let high = _mm256_castsi256_ps(_mm256_slli_epi32(kinds, 28));
    let row = |table: &[u32; 16]| {
        let low = _mm256_permutevar8x32_epi32(_mm256_loadu_si256(table.as_ptr().cast()), kinds);
        let above = _mm256_permutevar8x32_epi32(_mm256_loadu_si256(table.as_ptr().add(8).cast()), kinds);
        _mm256_castps_si256(_mm256_blendv_ps(_mm256_castsi256_ps(low), _mm256_castsi256_ps(above), high))
    };
    let set = _mm256_and_si256(_mm256_or_si256(bits, _mm256_set1_epi32(PAST as i32)), row(&SET));
    let unset = _mm256_cmpeq_epi32(set, _mm256_setzero_si256());
    let lacking = _mm256_cmpgt_epi32(kinds, _mm256_set1_epi32(9));
    let any = _mm256_or_si256(_mm256_and_si256(bits, row(&ZERO)), _mm256_or_si256(unset, lacking));
    _mm256_testz_si256(any, any) == 0
}

/// The same of a processor without wide vectors.
#[cfg(not(target_feature = "avx2"))]
unsafe fn some_wrong(log: *const u8) -> bool {
    let log = std::slice::from_raw_parts(log, 27);
    (0..8).fold(false, |any, i| any | wrong(log, i))
}

/// Refusals 11 and 12.
#[inline(always)]
pub fn refused(log: &[u8]) -> Result<(), u64> {
    if log.len() % 3 != 0 || log.len() > 12288 {
        return Err(refusal(11, 0));
    }
    let (count, mut i) = (log.len() / 3, 0);
    // SAFETY: thirty-two bytes from the record on are in the log.
    while 3 * i + 32 <= log.len() && unsafe { !some_wrong(log.as_ptr().add(3 * i)) } {
        i += 8;
    }
    (i..count).find(|&i| wrong(log, i)).map_or(Ok(()), |i| Err(refusal(12, i)))
}

/// Eight clocks, one for each thread. A thread's own goes on where something of it can be heard, so that an access is ordered after another exactly
/// when its thread has heard the other's clock.
#[derive(Clone, Copy)]
#[repr(align(16))]
struct Clocks([i16; 8]);

/// Clock t alone is 1.
const ONES: [Clocks; 8] = {
    let (mut all, mut t) = ([Clocks([0; 8]); 8], 0);
    while t < 8 {
        all[t].0[t] = 1;
        t += 1;
    }
    all
};

impl Clocks {
    const NONE: Clocks = Clocks([0; 8]);

    #[inline(always)]
    fn vector(&self) -> __m128i {
        // SAFETY: SSE2 is part of x86-64, and the array has 16 bytes.
        unsafe { _mm_load_si128(self.0.as_ptr().cast()) }
    }
    #[inline(always)]
    fn hear(&mut self, other: &Clocks) {
        // SAFETY: as above.
        unsafe { _mm_store_si128(self.0.as_mut_ptr().cast(), _mm_max_epi16(self.vector(), other.vector())) }
    }
    /// The clock of thread t goes on.
    #[inline(always)]
    fn tick(&mut self, t: usize) {
        // SAFETY: as above.
        unsafe { _mm_store_si128(self.0.as_mut_ptr().cast(), _mm_add_epi16(self.vector(), ONES[t].vector())) }
    }
    /// Some clock is ahead of the other's.
    #[inline(always)]
    fn ahead(&self, other: &Clocks) -> bool {
        // SAFETY: as above.
        unsafe { _mm_movemask_epi8(_mm_cmpgt_epi16(self.vector(), other.vector())) != 0 }
    }
    /// Whether the access of this epoch has been heard of.
    #[inline(always)]
    fn knows(&self, epoch: u16) -> bool {
        (epoch & 8191) as i16 <= self.0[usize::from(epoch >> 13)]
    }
    /// The epoch of an access of thread t.
    #[inline(always)]
    fn epoch(&self, t: usize) -> u16 {
        (t as u16) << 13 | self.0[t] as u16
    }
}

/// A place's last write and last read as epochs, thread * 8192 + clock; the rows of its reads, where the last is not ordered after all others, and of
/// its volatile writes. 0 is none.
#[derive(Clone, Copy)]
struct Place {
    write: u16,
    read: u16,
    reads: u16,
    volatile: u16,
}

/// The places of an object are cleared at its first access, a row when it is taken.
struct Kept {
    threads: [Clocks; 8],
    monitors: [Clocks; 32],
    objects: u32,
    taken: usize,
    places: [MaybeUninit<Place>; 1024],
    rows: [MaybeUninit<Clocks>; 2048],
}

impl Kept {
    #[inline(always)]
    fn place(&mut self, place: usize) -> &mut Place {
        if self.objects >> (place >> 5) & 1 == 0 {
            self.objects |= 1 << (place >> 5);
            self.places[place & !31..][..32].fill(MaybeUninit::new(Place { write: 0, read: 0, reads: 0, volatile: 0 }));
        }
        // SAFETY: the object's places were cleared.
        unsafe { self.places[place].assume_init_mut() }
    }

    #[inline(always)]
    fn row(&mut self, row: u16) -> &mut Clocks {
        // SAFETY: the row was taken.
        unsafe { self.rows[usize::from(row & 2047)].assume_init_mut() }
    }

    #[cold]
    fn take_row(&mut self) -> u16 {
        self.taken += 1;
        self.rows[self.taken & 2047].write(Clocks::NONE);
        self.taken as u16 & 2047
    }

    /// Whether the read is ordered.
    #[inline(always)]
    fn read(&mut self, t: usize, place: usize) -> bool {
        let clocks = self.threads[t];
        let kept = self.place(place);
        let (epoch, read, reads) = (clocks.epoch(t), kept.read, kept.reads);
        let ordered = clocks.knows(kept.write);
        if read == epoch {
            return ordered;
        }
        kept.read = epoch;
        if reads > 0 {
            self.row(reads).0[t] = clocks.0[t];
        } else if !clocks.knows(read) {
            let reads = self.take_row();
            self.place(place).reads = reads;
            let row = self.row(reads);
            (row.0[t], row.0[usize::from(read >> 13)]) = (clocks.0[t], (read & 8191) as i16);
        }
        ordered
    }

    /// Whether the write is ordered; what came before it counts no more then.
    #[inline(always)]
    fn write(&mut self, t: usize, place: usize) -> bool {
        let clocks = self.threads[t];
        let Place { write, read, reads, .. } = *self.place(place);
        if reads > 0 && self.row(reads).ahead(&clocks) {
            return false;
        }
        let kept = self.place(place);
        (kept.write, kept.read, kept.reads) = (clocks.epoch(t), 0, 0);
        clocks.knows(write) && (reads > 0 || clocks.knows(read))
    }

    #[inline(always)]
    fn read_volatile(&mut self, t: usize, place: usize) {
        let row = self.place(place).volatile;
        if row > 0 {
            let clocks = *self.row(row);
            self.threads[t].hear(&clocks);
        }
    }

    #[inline(always)]
    fn write_volatile(&mut self, t: usize, place: usize) {
        let mut row = self.place(place).volatile;
        if row == 0 {
            row = self.take_row();
            self.place(place).volatile = row;
        }
        let clocks = self.threads[t];
        self.row(row).hear(&clocks);
        self.threads[t].tick(t);
    }

    /// Whether the record is no unordered access; it is taken in.
    #[inline(always)]
    fn take(&mut self, bits: u32, version: u64) -> bool {
        let (t, o, f) = ((bits >> 17 & 7) as usize, (bits >> 12 & 31) as usize, (bits >> 7 & 7) as usize);
        let place = (bits >> 7 & 1023) as usize;
        match bits >> 20 {
            2 | 10 => return self.read(t, place),
            3 | 11 => return self.write(t, place),
            4 if version == 1 => self.read_volatile(t, place),
            5 if version == 1 => self.write_volatile(t, place),
            6 => self.threads[t].hear(&self.monitors[o]),
            7 => {
                self.monitors[o].hear(&self.threads[t]);
                self.threads[t].tick(t);
            }
            8 => {
                let forking = self.threads[t];
                self.threads[f].hear(&forking);
                self.threads[t].tick(t);
            }
            9 => {
                let joined = self.threads[f];
                self.threads[t].hear(&joined);
                self.threads[f].tick(f);
            }
            _ => {}
        }
        true
    }
}

pub fn judge(version: u64, log: &[u8]) -> u64 {
    if version > 1 {
        return refusal(14, 0);
    }
    if let Err(refused) = refused(log) {
        return refused;
    }
    let mut kept = Kept {
        threads: ONES,
        monitors: [Clocks::NONE; 32],
        objects: 0,
        taken: 0,
        places: [const { MaybeUninit::uninit() }; 1024],
        rows: [const { MaybeUninit::uninit() }; 2048],
    };
    let found = (0..log.len() / 3).find(|&i| !kept.take(record(log, i), version));
    found.map_or(0, |i| (1 << 32) + i as u64)
}
