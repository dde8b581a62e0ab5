//! The services as include/thinning.h declares them, and a safe function over slices for each.
//!
//! A safe function answers 0 or a refusal's number, and takes buffers of any length. It has the name of its service
//! without `thinning_`, and leaves what it is lent as the header says: untouched after a refusal.
//!
//! All unsafe code is here. What the header leaves to the caller holds for every call below: pointers of slices and
//! references are aligned and not null, of empty slices too, and point to as many elements as are said; what is
//! written comes by `&mut`, so it overlaps nothing else and nobody else looks at it; what is read comes by `&`, so
//! nobody writes it meanwhile. No service keeps a pointer.

mod declared {
    extern "C" {
        pub fn thinning_check_network(network: *const u8, network_len: usize) -> u32;
        pub fn thinning_plan(
            network: *const u8,
            network_len: usize,
            chain: *mut u8,
            chain_len: usize,
            kept: *mut u8,
            kept_len: usize,
            chain_written: *mut usize,
            kept_written: *mut usize,
        ) -> u32;
        pub fn thinning_plan_candidates(
            network: *const u8,
            network_len: usize,
            reserved: *const u16,
            reserved_len: usize,
            costs: *mut u8,
            costs_len: usize,
            written: *mut usize,
        ) -> u32;
        pub fn thinning_check_chain(
            network: *const u8,
            network_len: usize,
            chain: *const u8,
            chain_len: usize,
            kept: *mut u8,
            kept_len: usize,
            kept_written: *mut usize,
        ) -> u32;
        pub fn thinning_reasons(
            network: *const u8,
            network_len: usize,
            chain: *const u8,
            chain_len: usize,
            reasons: *mut u8,
            reasons_len: usize,
            written: *mut usize,
        ) -> u32;
        pub fn thinning_audit(
            network: *const u8,
            network_len: usize,
            list: *const u8,
            list_len: usize,
            connected: *mut bool,
            reached: *mut usize,
            critical: *mut usize,
        ) -> u32;
        pub fn thinning_print_page(
            network: *const u8,
            network_len: usize,
            list: *const u8,
            list_len: usize,
            page: *mut u8,
            page_len: usize,
            written: *mut usize,
        ) -> u32;
        pub fn thinning_check_table(table: *const u8, table_len: usize) -> u32;
        pub fn thinning_plan_table(
            table: *const u8,
            table_len: usize,
            chain: *mut u8,
            chain_len: usize,
            kept: *mut u8,
            kept_len: usize,
            chain_written: *mut usize,
            kept_written: *mut usize,
        ) -> u32;
        pub fn thinning_table_network(
            table: *const u8,
            table_len: usize,
            network: *mut u8,
            network_len: usize,
            written: *mut usize,
        ) -> u32;
        pub fn thinning_read_network(
            text: *const u8,
            text_len: usize,
            low: *mut u16,
            low_len: usize,
            high: *mut u16,
            high_len: usize,
            cost: *mut i64,
            cost_len: usize,
            vertices: *mut usize,
            reserved: *mut usize,
        ) -> u32;
        pub fn thinning_write_network(
            vertices: usize,
            reserved: usize,
            low: *const u16,
            low_len: usize,
            high: *const u16,
            high_len: usize,
            cost: *const i64,
            cost_len: usize,
            text: *mut u8,
            text_len: usize,
            written: *mut usize,
        ) -> u32;
        pub fn thinning_read_chain(
            vertices: usize,
            text: *const u8,
            text_len: usize,
            v: *mut u16,
            v_len: usize,
            x: *mut u16,
            x_len: usize,
            y: *mut u16,
            y_len: usize,
            z: *mut u16,
            z_len: usize,
            cost: *mut i64,
            cost_len: usize,
            dropped: *mut u16,
        ) -> u32;
        pub fn thinning_write_chain(
            vertices: usize,
            v: *const u16,
            v_len: usize,
            x: *const u16,
            x_len: usize,
            y: *const u16,
            y_len: usize,
            z: *const u16,
            z_len: usize,
            cost: *const i64,
            cost_len: usize,
            dropped: u16,
            text: *mut u8,
            text_len: usize,
            written: *mut usize,
        ) -> u32;
        pub fn thinning_read_list(
            vertices: usize,
            text: *const u8,
            text_len: usize,
            edges: *mut u16,
            edges_len: usize,
            count: *mut usize,
        ) -> u32;
        pub fn thinning_write_list(
            vertices: usize,
            edges: *const u16,
            edges_len: usize,
            text: *mut u8,
            text_len: usize,
            written: *mut usize,
        ) -> u32;
    }
}

/// Checks a network text.
pub fn check_network(network: &[u8]) -> u32 {
    // SAFETY: the text is a slice that is only read.
    unsafe { declared::thinning_check_network(network.as_ptr(), network.len()) }
}

/// Plans a network text: the chain text, the kept text and their lengths.
pub fn plan(
    network: &[u8],
    chain: &mut [u8],
    kept: &mut [u8],
    chain_written: &mut usize,
    kept_written: &mut usize,
) -> u32 {
    // SAFETY: the text is a slice that is only read; both buffers and both numbers are lent to this call alone.
    unsafe {
        declared::thinning_plan(
            network.as_ptr(),
            network.len(),
            chain.as_mut_ptr(),
            chain.len(),
            kept.as_mut_ptr(),
            kept.len(),
            chain_written,
            kept_written,
        )
    }
}

/// Plans a network text with each edge of a list reserved: a frame 06 for each, in the order of the list, and the
/// length of them all. A frame has 35 bytes.
pub fn plan_candidates(
    network: &[u8],
    reserved: &[u16],
    costs: &mut [u8],
    written: &mut usize,
) -> u32 {
    // SAFETY: text and list are slices that are only read; the buffer and the number are lent to this call alone.
    unsafe {
        declared::thinning_plan_candidates(
            network.as_ptr(),
            network.len(),
            reserved.as_ptr(),
            reserved.len(),
            costs.as_mut_ptr(),
            costs.len(),
            written,
        )
    }
}

/// Checks any bytes as a chain over a network text: the kept text and its length.
pub fn check_chain(network: &[u8], chain: &[u8], kept: &mut [u8], kept_written: &mut usize) -> u32 {
    // SAFETY: both texts are slices that are only read; the buffer and the number are lent to this call alone.
    unsafe {
        declared::thinning_check_chain(
            network.as_ptr(),
            network.len(),
            chain.as_ptr(),
            chain.len(),
            kept.as_mut_ptr(),
            kept.len(),
            kept_written,
        )
    }
}

/// Checks any bytes as a chain over a network text, and says what put each edge in or out: a frame 0a for each, in the
/// order of their numbers, and the length of them all. A frame has 13 bytes.
pub fn reasons(network: &[u8], chain: &[u8], reasons: &mut [u8], written: &mut usize) -> u32 {
    // SAFETY: both texts are slices that are only read; the buffer and the number are lent to this call alone.
    unsafe {
        declared::thinning_reasons(
            network.as_ptr(),
            network.len(),
            chain.as_ptr(),
            chain.len(),
            reasons.as_mut_ptr(),
            reasons.len(),
            written,
        )
    }
}

/// Reads a network text: three columns of edges, the number of vertices and the reserved edge.
pub fn read_network(
    text: &[u8],
    low: &mut [u16],
    high: &mut [u16],
    cost: &mut [i64],
    vertices: &mut usize,
    reserved: &mut usize,
) -> u32 {
    // SAFETY: the text is a slice that is only read; the columns and the numbers are lent to this call alone.
    unsafe {
        declared::thinning_read_network(
            text.as_ptr(),
            text.len(),
            low.as_mut_ptr(),
            low.len(),
            high.as_mut_ptr(),
            high.len(),
            cost.as_mut_ptr(),
            cost.len(),
            vertices,
            reserved,
        )
    }
}

/// Writes the network text of columns, and its length.
pub fn write_network(
    vertices: usize,
    reserved: usize,
    low: &[u16],
    high: &[u16],
    cost: &[i64],
    text: &mut [u8],
    written: &mut usize,
) -> u32 {
    // SAFETY: the columns are slices that are only read; the buffer and the number are lent to this call alone.
    unsafe {
        declared::thinning_write_network(
            vertices,
            reserved,
            low.as_ptr(),
            low.len(),
            high.as_ptr(),
            high.len(),
            cost.as_ptr(),
            cost.len(),
            text.as_mut_ptr(),
            text.len(),
            written,
        )
    }
}

/// The columns of a chain's steps that its writer reads.
#[derive(Clone, Copy, Debug)]
pub struct Steps<'a> {
    /// The vertices that leave.
    pub v: &'a [u16],
    /// The partners to split with.
    pub x: &'a [u16],
    /// The other partners.
    pub y: &'a [u16],
    /// The third partners.
    pub z: &'a [u16],
    /// The costs of the third partners after the steps.
    pub cost: &'a [i64],
}

/// The columns of a chain's steps that its reader writes.
#[derive(Debug)]
pub struct StepsMut<'a> {
    /// The vertices that leave.
    pub v: &'a mut [u16],
    /// The partners to split with.
    pub x: &'a mut [u16],
    /// The other partners.
    pub y: &'a mut [u16],
    /// The third partners.
    pub z: &'a mut [u16],
    /// The costs of the third partners after the steps.
    pub cost: &'a mut [i64],
}

/// Reads a chain text for so many vertices: five columns of steps and the dropped edge.
pub fn read_chain(vertices: usize, text: &[u8], steps: StepsMut, dropped: &mut u16) -> u32 {
    let StepsMut { v, x, y, z, cost } = steps;
    // SAFETY: the text is a slice that is only read; the columns and the number are lent to this call alone.
    unsafe {
        declared::thinning_read_chain(
            vertices,
            text.as_ptr(),
            text.len(),
            v.as_mut_ptr(),
            v.len(),
            x.as_mut_ptr(),
            x.len(),
            y.as_mut_ptr(),
            y.len(),
            z.as_mut_ptr(),
            z.len(),
            cost.as_mut_ptr(),
            cost.len(),
            dropped,
        )
    }
}

/// Writes the chain text of columns, and its length.
pub fn write_chain(
    vertices: usize,
    steps: Steps,
    dropped: u16,
    text: &mut [u8],
    written: &mut usize,
) -> u32 {
    let Steps { v, x, y, z, cost } = steps;
    // SAFETY: the columns are slices that are only read; the buffer and the number are lent to this call alone.
    unsafe {
        declared::thinning_write_chain(
            vertices,
            v.as_ptr(),
            v.len(),
            x.as_ptr(),
            x.len(),
            y.as_ptr(),
            y.len(),
            z.as_ptr(),
            z.len(),
            cost.as_ptr(),
            cost.len(),
            dropped,
            text.as_mut_ptr(),
            text.len(),
            written,
        )
    }
}

/// Reads an audit list for so many vertices: its edges and how many they are.
pub fn read_list(vertices: usize, text: &[u8], edges: &mut [u16], count: &mut usize) -> u32 {
    // SAFETY: the text is a slice that is only read; the column and the number are lent to this call alone.
    unsafe {
        declared::thinning_read_list(
            vertices,
            text.as_ptr(),
            text.len(),
            edges.as_mut_ptr(),
            edges.len(),
            count,
        )
    }
}

/// Writes the audit list of rising edges, and its length.
pub fn write_list(vertices: usize, edges: &[u16], text: &mut [u8], written: &mut usize) -> u32 {
    // SAFETY: the column is a slice that is only read; the buffer and the number are lent to this call alone.
    unsafe {
        declared::thinning_write_list(
            vertices,
            edges.as_ptr(),
            edges.len(),
            text.as_mut_ptr(),
            text.len(),
            written,
        )
    }
}

/// Audits a list over a network text: whether it joins all vertices, how many it joins to vertex 0, and how many of
/// its edges are critical. A listed edge is critical if its ends are joined by the list and not by the list without it.
pub fn audit(
    network: &[u8],
    list: &[u8],
    connected: &mut bool,
    reached: &mut usize,
    critical: &mut usize,
) -> u32 {
    // SAFETY: both texts are slices that are only read; the truth value and both numbers are lent to this call alone.
    unsafe {
        declared::thinning_audit(
            network.as_ptr(),
            network.len(),
            list.as_ptr(),
            list.len(),
            connected,
            reached,
            critical,
        )
    }
}

/// Prints a list over a network text: the page and its length. A line has 37 bytes, one for each listed edge and a last
/// one for the sum of their costs.
pub fn print_page(network: &[u8], list: &[u8], page: &mut [u8], written: &mut usize) -> u32 {
    // SAFETY: both texts are slices that are only read; the buffer and the number are lent to this call alone.
    unsafe {
        declared::thinning_print_page(
            network.as_ptr(),
            network.len(),
            list.as_ptr(),
            list.len(),
            page.as_mut_ptr(),
            page.len(),
            written,
        )
    }
}

/// Checks a table text.
pub fn check_table(table: &[u8]) -> u32 {
    // SAFETY: the text is a slice that is only read.
    unsafe { declared::thinning_check_table(table.as_ptr(), table.len()) }
}

/// Plans a table text: the chain text, the kept text and their lengths.
pub fn plan_table(
    table: &[u8],
    chain: &mut [u8],
    kept: &mut [u8],
    chain_written: &mut usize,
    kept_written: &mut usize,
) -> u32 {
    // SAFETY: the text is a slice that is only read; both buffers and both numbers are lent to this call alone.
    unsafe {
        declared::thinning_plan_table(
            table.as_ptr(),
            table.len(),
            chain.as_mut_ptr(),
            chain.len(),
            kept.as_mut_ptr(),
            kept.len(),
            chain_written,
            kept_written,
        )
    }
}

/// Writes the network text that a table text stands for, and its length.
pub fn table_network(table: &[u8], network: &mut [u8], written: &mut usize) -> u32 {
    // SAFETY: the text is a slice that is only read; the buffer and the number are lent to this call alone.
    unsafe {
        declared::thinning_table_network(
            table.as_ptr(),
            table.len(),
            network.as_mut_ptr(),
            network.len(),
            written,
        )
    }
}
