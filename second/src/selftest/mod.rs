//! Published vectors, and cross-checks of one way of computing a thing against another.
//! The same tests run with `cargo test` and with `second selftest`.

mod archives;
mod basics;
mod buffers;
mod capture;
mod edits;
mod fec;
mod gmp;
mod hamming;
mod interleaver;
mod super_frame;
mod symbols;
mod texts;

macro_rules! tests {
    ($($module:ident: $($name:ident),*;)*) => {
        /// Runs every test. A failing test stops the program.
        pub fn run_all() -> String {
            let mut text = String::new();
            $($(
                $module::$name();
                text += concat!("ok ", stringify!($name), "\n");
            )*)*
            text
        }

        #[cfg(test)]
        mod tests {
            $($(
                #[test]
                fn $name() {
                    super::$module::$name();
                }
            )*)*
        }
    };
}

// Each test under the file it stands in.
tests!(
    basics:
        bits_there_and_back,
        generator_and_digest,
        lengths_agree;
    gmp:
        table_7_as_printed,
        listing_of_10216,
        run_program_refusals,
        data_places_up_to_j,
        run_requests,
        window_cases,
        window_round_trips;
    fec:
        crc_published_values,
        crc_is_zero_over_block_and_field,
        mbas_of_the_printed_rows,
        mbas_counts_and_wraps,
        mbas_tells_every_m0,
        mbas_stands_behind_the_crc;
    super_frame:
        scrambler_values;
    interleaver:
        delay_lines,
        filler_slots,
        mixed_words_at_borders;
    hamming:
        column_order_as_printed,
        matrix_properties,
        published_words,
        encoder_matrix_of_10_5,
        repairs;
    symbols:
        table_12_as_printed,
        byte_places;
    capture:
        information_parts,
        coding_and_reading,
        coding_bit_by_bit,
        reading_refusals;
    edits:
        listed_word_counts,
        edits_equal_coding_afresh,
        edit_of_never_coded,
        edit_refusals;
    archives:
        archive_listings,
        archive_too_large_to_hold,
        archive_write_refusals,
        archive_read_refusals,
        archive_read_lengths,
        archive_writing_agrees_with_reading,
        archive_every_size_and_byte,
        archive_damaged_heads,
        archive_offsets_do_not_wrap,
        archive_texts;
    buffers:
        buffers_of_coding_and_reading,
        buffers_of_edits,
        buffers_of_parts,
        buffers_of_windows,
        buffers_of_archive_files,
        buffer_lines;
    texts:
        refused_lines_keep_their_buffers;
);
