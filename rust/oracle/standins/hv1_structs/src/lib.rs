//! Stand-in: an array with a place for each VTL.

use hvdef::Vtl;
use std::ops::Index;
use std::ops::IndexMut;

pub struct VtlArray<T, const N: usize>([T; N]);

impl<T, const N: usize> VtlArray<T, N> {
    pub fn from_fn(mut make: impl FnMut(Vtl) -> T) -> Self {
        Self(std::array::from_fn(|i| make(vtl(i))))
    }
}

impl<V: Into<Vtl>, T, const N: usize> Index<V> for VtlArray<T, N> {
    type Output = T;

    fn index(&self, vtl: V) -> &T {
        &self.0[vtl.into() as usize]
    }
}

impl<V: Into<Vtl>, T, const N: usize> IndexMut<V> for VtlArray<T, N> {
    fn index_mut(&mut self, vtl: V) -> &mut T {
        &mut self.0[vtl.into() as usize]
    }
}

fn vtl(place: usize) -> Vtl {
    [Vtl::Vtl0, Vtl::Vtl1, Vtl::Vtl2][place]
}

#[cfg(test)]
mod tests {
    use super::*;

    #[test]
    fn each_vtl_has_its_own_place() {
        let mut array = VtlArray::<_, 2>::from_fn(|vtl| vec![vtl]);
        array[Vtl::Vtl1].push(Vtl::Vtl2);
        assert_eq!(array[Vtl::Vtl0], [Vtl::Vtl0]);
        assert_eq!(array[Vtl::Vtl1], [Vtl::Vtl1, Vtl::Vtl2]);
    }
}
