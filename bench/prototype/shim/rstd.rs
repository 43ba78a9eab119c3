//! What the hot path uses of Rattle's std, in the same shape: no bounds checks, fields in the order of the source,
//! a Vec of pointer, length, capacity and an allocator of no size.
#![allow(dead_code)]

pub mod alloc {
    #[repr(C)]
    #[derive(Clone, Copy)]
    pub struct Memory {
        pub seal: (),
    }

    #[repr(C)]
    #[derive(Clone, Copy)]
    pub struct Global {
        pub memory: Memory,
    }

    pub const GLOBAL: Global = Global { memory: Memory { seal: () } };

    #[derive(Clone, Copy, PartialEq, Eq, Debug)]
    pub struct AllocError;

    #[repr(C)]
    pub struct Block {
        pub p: *mut u8,
        pub ok: bool,
    }

    unsafe extern "C" {
        fn malloc(n: usize) -> *mut u8;
        fn realloc(p: *mut u8, n: usize) -> *mut u8;
        fn free(p: *mut u8);
    }

    // In C at Rattle's: calls that aren't inlined.
    #[inline(never)]
    pub unsafe extern "C" fn rattle_alloc(size: usize, _align: usize) -> Block {
        let p = malloc(if size == 0 { 1 } else { size });
        Block { p, ok: !p.is_null() }
    }

    #[inline(never)]
    pub unsafe extern "C" fn rattle_dealloc(p: *mut u8) {
        free(p)
    }

    #[inline(never)]
    pub unsafe extern "C" fn rattle_realloc(p: *mut u8, _used: usize, size: usize, _align: usize) -> Block {
        let p = realloc(p, if size == 0 { 1 } else { size });
        Block { p, ok: !p.is_null() }
    }

    const MAX_SIZE: usize = isize::MAX as usize;
    const MAX_ALIGN: usize = 16;

    impl Global {
        pub fn allocate(&self, size: usize, align: usize) -> Result<*mut u8, AllocError> {
            if MAX_SIZE < size {
                return Err(AllocError);
            }
            if MAX_ALIGN < align {
                return Err(AllocError);
            }
            let block = unsafe { rattle_alloc(size, align) };
            if block.ok { Ok(block.p) } else { Err(AllocError) }
        }

        pub unsafe fn deallocate(&self, ptr: *mut u8, _size: usize, _align: usize) {
            rattle_dealloc(ptr);
        }

        pub unsafe fn grow<T>(&self, ptr: *mut T, len: usize, _old: usize, new_cap: usize) -> Result<*mut T, AllocError> {
            let size = size_of::<T>();
            let block = rattle_realloc(ptr as *mut u8, len * size, new_cap * size, align_of::<T>());
            if block.ok { Ok(block.p as *mut T) } else { Err(AllocError) }
        }
    }
}

pub mod vec {
    use super::alloc::{AllocError, Global};
    use super::VecDeque;
    use core::ops::{Deref, DerefMut, Index, IndexMut, Range, RangeFrom, RangeFull, RangeTo};

    #[repr(C)]
    pub struct Vec<T> {
        pub(super) ptr: *const T,
        pub(super) len: usize,
        pub(super) cap: usize,
        pub(super) alloc: Global,
    }

    pub struct AllocFailed<T> {
        pub value: T,
    }

    impl<T> From<AllocFailed<T>> for AllocError {
        fn from(_refused: AllocFailed<T>) -> AllocError {
            AllocError
        }
    }

    pub(super) fn may_hold<T>(n: usize) -> bool {
        let size = size_of::<T>();
        if 0x7fff_ffff_ffff_ffff < n {
            return false;
        }
        if 0x7fff_ffff_ffff_ffff < size {
            return false;
        }
        if size == 0 {
            return true;
        }
        n <= 0x7fff_ffff_ffff_ffff / size
    }

    pub(super) fn least_capacity<T>() -> usize {
        if may_hold::<T>(0x7fff_ffff_ffff_ffff) {
            8
        } else if may_hold::<T>(0x7fff_ffff_ffff_ffff / 1024) {
            4
        } else {
            1
        }
    }

    pub(super) fn grown(cap: usize, wanted: usize, least: usize) -> usize {
        let room = if wanted < least { least } else { wanted };
        if cap < 0x4000_0000_0000_0000 {
            let twice = cap + cap;
            if room < twice {
                return twice;
            }
        }
        room
    }

    pub(super) unsafe fn resize<T>(alloc: &Global, ptr: *mut T, len: usize, old_cap: usize, new_cap: usize) -> Result<*mut T, AllocError> {
        if old_cap != 0 {
            return alloc.grow(ptr, len, old_cap, new_cap);
        }
        match alloc.allocate(new_cap * size_of::<T>(), align_of::<T>()) {
            Ok(block) => Ok(block as *mut T),
            Err(error) => Err(error),
        }
    }

    // A run of places, as core::slots has it.
    #[repr(C)]
    pub(super) struct Slots<T> {
        ptr: *mut T,
        len: usize,
    }

    impl<T> Slots<T> {
        fn take(&mut self, i: usize) -> T {
            unsafe { self.ptr.add(i).read() }
        }
        fn put(&mut self, i: usize, x: T) {
            unsafe { self.ptr.add(i).write(x) }
        }
        fn copy_in(&mut self, to: usize, src: &[T])
        where
            T: Copy,
        {
            unsafe { copy_bits(src.as_ptr(), self.ptr.add(to), src.len()) }
        }
    }

    // A loop, as core::ptr::copy_drop has it.
    unsafe fn copy_bits<T>(src: *const T, dst: *mut T, count: usize) {
        let mut i = 0;
        while i < count {
            dst.add(i).write(src.add(i).read());
            i += 1;
        }
    }

    fn drop_run<T>(row: &mut Slots<T>, from: usize, to: usize) {
        let mut i = from;
        while i < to {
            drop(row.take(i));
            i += 1;
        }
    }

    fn fill_run<T: Copy>(row: &mut Slots<T>, from: usize, to: usize, x: T) {
        let mut i = from;
        while i < to {
            row.put(i, x);
            i += 1;
        }
    }

    #[repr(C)]
    struct Spare<T> {
        ptr: *mut T,
        cap: usize,
    }

    impl<T> Vec<T> {
        pub fn new(alloc: Global) -> Vec<T> {
            let none: [T; 0] = [];
            Vec { ptr: &raw const none as *const T, len: 0, cap: 0, alloc }
        }

        pub(super) fn grow(&mut self, additional: usize) -> bool {
            if additional <= self.capacity() - self.len() {
                return true;
            }
            self.grow_amortized(additional)
        }

        #[cold]
        #[inline(never)]
        fn grow_amortized(&mut self, additional: usize) -> bool {
            let len = self.len();
            if usize::MAX - len < additional {
                return false;
            }
            self.move_to(grown(self.capacity(), len + additional, least_capacity::<T>()))
        }

        pub fn with_capacity(alloc: Global, capacity: usize) -> Result<Vec<T>, AllocError> {
            let mut v = Vec::new(alloc);
            if capacity != 0 && !v.move_to(capacity) {
                return Err(AllocError);
            }
            Ok(v)
        }

        pub fn len(&self) -> usize {
            self.len
        }

        pub fn capacity(&self) -> usize {
            self.cap
        }

        pub fn allocator(&self) -> &Global {
            &self.alloc
        }

        pub fn is_empty(&self) -> bool {
            self.len == 0
        }

        pub fn as_slice(&self) -> &[T] {
            unsafe { core::slice::from_raw_parts(self.ptr, self.len) }
        }

        pub fn as_mut_slice(&mut self) -> &mut [T] {
            unsafe { core::slice::from_raw_parts_mut(self.ptr.cast_mut(), self.len) }
        }

        pub fn reserve(&mut self, additional: usize) -> Result<(), AllocError> {
            if !self.grow(additional) {
                return Err(AllocError);
            }
            Ok(())
        }

        pub fn reserve_exact(&mut self, additional: usize) -> Result<(), AllocError> {
            if !self.grow(additional) {
                return Err(AllocError);
            }
            Ok(())
        }

        pub fn push(&mut self, value: T) -> Result<(), AllocFailed<T>> {
            if !self.grow(1) {
                return Err(AllocFailed { value });
            }
            self.put(value);
            Ok(())
        }

        fn free_block(&mut self) {
            if self.cap != 0 {
                unsafe {
                    self.alloc.deallocate(self.ptr as *mut u8, self.cap * size_of::<T>(), align_of::<T>());
                }
            }
        }

        pub(super) fn move_to(&mut self, cap: usize) -> bool {
            if !may_hold::<T>(cap) {
                return false;
            }
            match unsafe { resize(&self.alloc, self.ptr.cast_mut(), self.len, self.cap, cap) } {
                Ok(to) => {
                    self.ptr = to;
                    self.cap = cap;
                    true
                }
                Err(_) => false,
            }
        }

        pub fn push_reserved(&mut self, value: T) {
            self.put(value);
        }

        pub(super) fn put(&mut self, x: T) {
            let len = self.len;
            unsafe {
                self.ptr.cast_mut().add(len).write(x);
            }
            self.len = len + 1;
        }

        pub fn pop(&mut self) -> Option<T> {
            if self.len() == 0 {
                return None;
            }
            Some(self.take_last())
        }

        pub fn take_last(&mut self) -> T {
            self.len = self.len - 1;
            unsafe { self.ptr.add(self.len).read() }
        }

        pub fn swap_remove(&mut self, i: usize) -> T {
            let last = self.len - 1;
            self.len = last;
            unsafe {
                let end = self.ptr.add(last).read();
                if i == last {
                    return end;
                }
                let at = self.ptr.cast_mut().add(i);
                let x = at.read();
                at.write(end);
                x
            }
        }

        fn detach(&mut self, places: usize) -> (Slots<T>, Spare<T>) {
            let ptr = self.ptr.cast_mut();
            let cap = self.cap;
            self.len = 0;
            self.cap = 0;
            (Slots { ptr, len: places }, Spare { ptr, cap })
        }

        fn attach(&mut self, _row: Slots<T>, spare: Spare<T>, len: usize) {
            let Spare { ptr, cap } = spare;
            self.ptr = ptr;
            self.len = len;
            self.cap = cap;
        }

        pub fn truncate(&mut self, n: usize) {
            if self.len() <= n {
                return;
            }
            self.truncate_within(n);
        }

        fn truncate_within(&mut self, n: usize) {
            let len = self.len();
            let (mut row, spare) = self.detach(len);
            drop_run(&mut row, n, len);
            self.attach(row, spare, n);
        }

        pub fn clear(&mut self) {
            self.truncate(0);
        }
    }

    impl<T> Vec<T> {
        pub fn from_array<const N: usize>(alloc: Global, items: [T; N]) -> Result<Vec<T>, AllocError> {
            let mut made = Vec::with_capacity(alloc, N)?;
            for item in items {
                made.push_reserved(item);
            }
            Ok(made)
        }
    }

    impl<T: Copy> Vec<T> {
        fn extend_with(&mut self, n: usize, x: T) -> Result<(), AllocError> {
            if !self.grow(n) {
                return Err(AllocError);
            }
            let len = self.len();
            let (mut row, spare) = self.detach(len + n);
            fill_run(&mut row, len, len + n, x);
            self.attach(row, spare, len + n);
            Ok(())
        }

        pub fn extend_from_slice(&mut self, other: &[T]) -> Result<(), AllocError> {
            if !self.grow(other.len()) {
                return Err(AllocError);
            }
            let len = self.len();
            let (mut row, spare) = self.detach(len + other.len());
            row.copy_in(len, other);
            self.attach(row, spare, len + other.len());
            Ok(())
        }

        pub fn resize(&mut self, n: usize, value: T) -> Result<(), AllocError> {
            let len = self.len();
            if n <= len {
                self.truncate(n);
                return Ok(());
            }
            self.extend_with(n - len, value)
        }

        pub fn from_slice(alloc: Global, items: &[T]) -> Result<Vec<T>, AllocError> {
            let mut v = Vec::with_capacity(alloc, items.len())?;
            match v.extend_from_slice(items) {
                Ok(()) => Ok(v),
                Err(e) => Err(e),
            }
        }

        pub fn from_elem(alloc: Global, elem: T, n: usize) -> Result<Vec<T>, AllocError> {
            let mut v = Vec::with_capacity(alloc, n)?;
            v.extend_with(n, elem)?;
            Ok(v)
        }

        pub fn copy_within<R: SliceRange>(&mut self, src: R, dest: usize) {
            let (start, end) = src.within(self.len());
            shift(self.as_mut_slice(), start, end, dest);
        }
    }

    pub trait SliceRange {
        fn within(self, len: usize) -> (usize, usize);
    }
    impl SliceRange for RangeFrom<usize> {
        fn within(self, len: usize) -> (usize, usize) {
            (self.start, len)
        }
    }
    impl SliceRange for Range<usize> {
        fn within(self, _len: usize) -> (usize, usize) {
            (self.start, self.end)
        }
    }
    impl SliceRange for RangeTo<usize> {
        fn within(self, _len: usize) -> (usize, usize) {
            (0, self.end)
        }
    }
    impl SliceRange for RangeFull {
        fn within(self, len: usize) -> (usize, usize) {
            (0, len)
        }
    }

    fn shift<T: Copy>(s: &mut [T], start: usize, end: usize, dest: usize) {
        if dest <= start {
            let mut i = 0;
            while i < end - start {
                let x = s[start + i];
                s[dest + i] = x;
                i = i + 1;
            }
        } else {
            let mut i = end - start;
            while 0 < i {
                i = i - 1;
                let x = s[start + i];
                s[dest + i] = x;
            }
        }
    }

    impl<T> Drop for Vec<T> {
        fn drop(&mut self) {
            self.clear();
            self.free_block();
        }
    }

    impl<T> Deref for Vec<T> {
        type Target = [T];
        fn deref(&self) -> &[T] {
            self.as_slice()
        }
    }

    impl<T> DerefMut for Vec<T> {
        fn deref_mut(&mut self) -> &mut [T] {
            self.as_mut_slice()
        }
    }

    impl<T> Index<usize> for Vec<T> {
        type Output = T;
        fn index(&self, index: usize) -> &T {
            &self.as_slice()[index]
        }
    }

    impl<T> IndexMut<usize> for Vec<T> {
        fn index_mut(&mut self, index: usize) -> &mut T {
            unsafe { &mut *self.ptr.cast_mut().add(index) }
        }
    }

    macro_rules! ranged {
        ($($range:ty)*) => {$(
            impl<T> Index<$range> for Vec<T> {
                type Output = [T];
                fn index(&self, range: $range) -> &[T] {
                    let (start, end) = SliceRange::within(range, self.len);
                    unsafe { core::slice::from_raw_parts(self.ptr.add(start), end - start) }
                }
            }
        )*};
    }
    ranged!(RangeFrom<usize> Range<usize> RangeTo<usize> RangeFull);

    #[repr(C)]
    pub struct IntoIter<T> {
        rest: VecDeque<T>,
    }

    impl<T> IntoIterator for Vec<T> {
        type Item = T;
        type IntoIter = IntoIter<T>;
        fn into_iter(self) -> IntoIter<T> {
            IntoIter { rest: VecDeque::from_vec(self) }
        }
    }

    impl<T> Iterator for IntoIter<T> {
        type Item = T;
        fn next(&mut self) -> Option<T> {
            self.rest.pop_front()
        }
    }

    impl<'a, T> IntoIterator for &'a Vec<T> {
        type Item = &'a T;
        type IntoIter = core::slice::Iter<'a, T>;
        fn into_iter(self) -> core::slice::Iter<'a, T> {
            self.as_slice().iter()
        }
    }

    impl<'a, T> IntoIterator for &'a mut Vec<T> {
        type Item = &'a mut T;
        type IntoIter = core::slice::IterMut<'a, T>;
        fn into_iter(self) -> core::slice::IterMut<'a, T> {
            self.as_mut_slice().iter_mut()
        }
    }
}

use self::alloc::{AllocError, Global};
use self::vec::{grown, least_capacity, AllocFailed, Vec};
use core::mem::ManuallyDrop;
use core::ops::Index;

#[repr(C)]
pub struct VecDeque<T> {
    ptr: *const T,
    len: usize,
    cap: usize,
    head: usize,
    wrapped: usize,
    alloc: Global,
}

impl<T> VecDeque<T> {
    pub fn from_vec(v: Vec<T>) -> VecDeque<T> {
        let v = ManuallyDrop::new(v);
        VecDeque { ptr: v.ptr, len: v.len, cap: v.cap, head: 0, wrapped: 0, alloc: v.alloc }
    }
    pub fn new(alloc: Global) -> VecDeque<T> {
        VecDeque::from_vec(Vec::new(alloc))
    }
    pub fn with_capacity(alloc: Global, capacity: usize) -> Result<VecDeque<T>, AllocError> {
        Ok(VecDeque::from_vec(Vec::with_capacity(alloc, capacity)?))
    }
    pub fn len(&self) -> usize {
        self.len
    }
    pub fn is_empty(&self) -> bool {
        self.len == 0
    }
    pub fn capacity(&self) -> usize {
        self.cap
    }
    pub fn pop_front(&mut self) -> Option<T> {
        if self.len == 0 {
            return None;
        }
        if self.wrapped == self.len {
            self.head = 0;
            self.wrapped = 0;
        }
        let at = self.head;
        self.head = at + 1;
        self.len = self.len - 1;
        Some(unsafe { self.ptr.add(at).read() })
    }
    #[cold]
    #[inline(never)]
    fn grow(&mut self, additional: usize) -> bool {
        // Not as Rattle's: always into a new block.
        let cap = grown(self.cap, self.len + additional, least_capacity::<T>());
        let Ok(to) = self.alloc.allocate(cap * size_of::<T>(), align_of::<T>()) else {
            return false;
        };
        let to = to as *mut T;
        let run = self.len - self.wrapped;
        unsafe {
            core::ptr::copy_nonoverlapping(self.ptr.add(self.head), to, run);
            core::ptr::copy_nonoverlapping(self.ptr, to.add(run), self.wrapped);
            if self.cap != 0 {
                self.alloc.deallocate(self.ptr as *mut u8, 0, 0);
            }
        }
        self.ptr = to;
        self.cap = cap;
        self.head = 0;
        self.wrapped = 0;
        true
    }
    fn write_back(&mut self, x: T) {
        if self.len - self.wrapped < self.cap - self.head {
            let len = self.len;
            unsafe { self.ptr.cast_mut().add(self.head + (len - self.wrapped)).write(x) };
            self.len = len + 1;
            return;
        }
        let low = self.wrapped;
        let len = self.len;
        unsafe { self.ptr.cast_mut().add(low).write(x) };
        self.wrapped = low + 1;
        self.len = len + 1;
    }
    pub fn push_back(&mut self, value: T) -> Result<(), AllocFailed<T>> {
        if self.len() < self.capacity() {
            self.write_back(value);
            return Ok(());
        }
        if !self.grow(1) {
            return Err(AllocFailed { value });
        }
        self.write_back(value);
        Ok(())
    }
    pub fn push_back_reserved(&mut self, value: T) {
        self.write_back(value);
    }
    pub fn reserve(&mut self, n: usize) -> Result<(), AllocError> {
        if n <= self.cap - self.len || self.grow(n) { Ok(()) } else { Err(AllocError) }
    }
    // Not as Rattle's: one by one.
    pub fn append(&mut self, other: &mut VecDeque<T>) -> Result<(), AllocError> {
        self.reserve(other.len())?;
        while let Some(x) = other.pop_front() {
            self.write_back(x);
        }
        Ok(())
    }
    pub fn clear(&mut self) {
        while let Some(x) = self.pop_front() {
            drop(x);
        }
    }
    // Not as Rattle's: it takes from the back one by one.
    #[cold]
    #[inline(never)]
    pub fn truncate(&mut self, n: usize) {
        while self.len > n {
            let run = self.len - self.wrapped;
            let at = if self.wrapped > 0 { self.wrapped - 1 } else { self.head + run - 1 };
            if self.wrapped > 0 {
                self.wrapped -= 1;
            }
            self.len -= 1;
            drop(unsafe { self.ptr.add(at).read() });
        }
    }
    pub fn front(&self) -> Option<&T> {
        if self.len == 0 { None } else { Some(&self[0]) }
    }
    pub fn get(&self, i: usize) -> Option<&T> {
        if i < self.len { Some(&self[i]) } else { None }
    }
    pub fn back(&self) -> Option<&T> {
        if self.len == 0 { None } else { Some(&self[self.len - 1]) }
    }
}

impl<T> Drop for VecDeque<T> {
    fn drop(&mut self) {
        self.clear();
        if self.cap != 0 {
            unsafe { self.alloc.deallocate(self.ptr as *mut u8, 0, 0) }
        }
    }
}

impl<T> Index<usize> for VecDeque<T> {
    type Output = T;
    fn index(&self, i: usize) -> &T {
        let run = self.len - self.wrapped;
        unsafe {
            if i < run { &*self.ptr.add(self.head + i) } else { &*self.ptr.add(i - run) }
        }
    }
}

/// A box: a pointer, and an allocator of no size.
#[repr(C)]
pub struct Box<T> {
    ptr: *const T,
    alloc: Global,
}

impl<T> Box<T> {
    pub fn new(alloc: Global, value: T) -> Result<Box<T>, AllocFailed<T>> {
        match alloc.allocate(size_of::<T>(), align_of::<T>()) {
            Ok(p) => {
                let ptr = p as *mut T;
                unsafe { ptr.write(value) };
                Ok(Box { ptr, alloc })
            }
            Err(_) => Err(AllocFailed { value }),
        }
    }

    pub fn replace(of: &mut Box<T>, value: T) -> T {
        core::mem::replace(&mut **of, value)
    }

    pub fn as_mut(&mut self) -> &mut T {
        &mut **self
    }
}

impl<T> core::ops::Deref for Box<T> {
    type Target = T;
    fn deref(&self) -> &T {
        unsafe { &*self.ptr }
    }
}

impl<T> core::ops::DerefMut for Box<T> {
    fn deref_mut(&mut self) -> &mut T {
        unsafe { &mut *self.ptr.cast_mut() }
    }
}

impl<T> Drop for Box<T> {
    fn drop(&mut self) {
        unsafe {
            core::ptr::drop_in_place(self.ptr.cast_mut());
            self.alloc.deallocate(self.ptr as *mut u8, 0, 0);
        }
    }
}

#[macro_export]
macro_rules! rvec {
    ($alloc:expr; $x:expr; $n:expr) => {
        $crate::rstd::vec::Vec::from_elem($alloc, $x, $n)
    };
    ($alloc:expr; $($x:expr),* $(,)?) => {
        $crate::rstd::vec::Vec::from_array($alloc, [$($x),*])
    };
}

pub mod prelude {
    pub use super::vec::Vec;
    pub use super::Box;
    pub use crate::rvec;
}
