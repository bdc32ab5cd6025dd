// The shape of a map, and the sizes of its buffers.
use crate::c;

// Four lengths, of which as many are looked at as there are axes; any number of axes may be asked for, as one that is not 1
// to 4 is refused before a length is read.
#[derive(Clone, Copy)]
pub struct Shape {
    pub dims: [usize; 4],
    pub axes: usize,
}

impl Shape {
    pub fn check(&self) -> u32 {
        unsafe { c::corvezan_check_shape(self.dims.as_ptr(), self.axes) }
    }

    pub fn points(&self) -> usize {
        unsafe { c::corvezan_points(self.dims.as_ptr(), self.axes) }
    }

    pub fn scratch_len(&self) -> usize {
        unsafe { c::corvezan_scratch_len(self.dims.as_ptr(), self.axes) }
    }

    pub fn stride(&self, axis: usize) -> usize {
        unsafe { c::corvezan_stride(self.dims.as_ptr(), self.axes, axis) }
    }

    pub fn lines(&self, axis: usize) -> usize {
        unsafe { c::corvezan_lines(self.dims.as_ptr(), self.axes, axis) }
    }

    pub fn first_cell(&self, axis: usize, line: usize, cell: &mut usize) -> u32 {
        unsafe { c::corvezan_first_cell(self.dims.as_ptr(), self.axes, axis, line, cell) }
    }
}
