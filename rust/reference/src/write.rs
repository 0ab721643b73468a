//! The writer: a file becomes the packets of the code cube that holds it.

use crate::pack::{Job, count, pack, packet, read_job};
use crate::{Shape, encode};

/// Writes the code cube of the job's file, and the pack of the packets of all cells that are sent, in cell order.
pub fn write_pack(job: &[u8], cube: &mut [u8], output: &mut [u8]) -> Result<(), u8> {
    let Job { header, file } = read_job(job)?;
    let shape = header.shape;
    if cube.len() != shape.cube_bytes() || output.len() != header.pack_bytes() {
        return Err(4);
    }
    encode(shape, &data_string(shape, file), cube)?;
    let sent = header.sent();
    let packets = sent.iter().map(|&cell| packet(shape, cube, cell));
    output.copy_from_slice(&pack(header, &[], &packets.collect::<Vec<_>>()));
    Ok(())
}

/// The file's length, the file, then 00h to capacity.
pub fn data_string(shape: Shape, file: &[u8]) -> Vec<u8> {
    let mut data = count(file.len()).to_vec();
    data.extend(file);
    data.resize(shape.capacity(), 0x00);
    data
}

#[cfg(test)]
mod tests {
    use super::*;

    #[test]
    fn packets_in_cell_order() {
        let shape = Shape::new(4, 3, 3, 2);
        let (mut cube, mut output) = (vec![0xAA; 72], vec![0xAA; 17 + 36 * 5]);
        let job = pack(shape, &[], &[]);
        assert_eq!(write_pack(&job, &mut cube, &mut output), Ok(()));
        assert_eq!(cube, [0; 72]);
        assert_eq!(
            output[..17],
            [5, 0, 0, 0, 4, 3, 3, 2, 0, 0, 0, 0, 0, 36, 0, 0, 0]
        );
        assert_eq!(output[17..27], [0, 0, 0, 0, 0, 1, 0, 0, 0, 0]);
        assert_eq!(output[17 + 35 * 5..], [3, 2, 2, 0, 0]);
    }

    #[test]
    fn unsent_cells_have_no_packet() {
        // Data cells (0,0,0), which holds the length and the file, and (1,0,0).
        let shape = Shape::new(4, 3, 3, 5);
        let job = pack(shape.used(1), &[7], &[]);
        let (mut cube, mut output) = (vec![0xAA; 180], vec![0xAA; 21 + 35 * 8]);
        assert_eq!(write_pack(&job, &mut cube, &mut output), Ok(()));
        assert!(shape.is_code_cube(&cube));
        assert_eq!(cube[..10], [1, 0, 0, 0, 7, 0, 0, 0, 0, 0]);
        assert_eq!(output[..13], job[..13]);
        assert_eq!(output[13..21], [0, 0, 0, 0, 35, 0, 0, 0]);
        assert_eq!(output[21..29], [0, 0, 0, 1, 0, 0, 0, 7]);
        assert_eq!(output[29..32], [2, 0, 0]);
        assert_eq!(output[32..37], cube[10..15]);
    }

    #[test]
    fn data_strings() {
        let shape = Shape::new(3, 3, 3, 6);
        assert_eq!(data_string(shape, &[]), [0; 6]);
        assert_eq!(data_string(shape, &[7]), [1, 0, 0, 0, 7, 0]);
        assert_eq!(data_string(shape, &[7, 8]), [2, 0, 0, 0, 7, 8]);
    }
}
