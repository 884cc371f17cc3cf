// SPDX-License-Identifier: BSD-2-Clause-Patent
// Two volumes for examples and tests, which include this file: one of a file with two sections, and
// an empty one.
{
    let text = "0000000000000000000000000000000078e58c8c3d8a1c4f9935896185c32dd3
                80000000000000005f465648fffe04004800cef5000000020100000080000000
                00000000000000000a0a0a0a0a0a0a0a0a0a0a0a0a0a0a0af89c0240260000f8
                050000195aeeeeee060000190102ffffffffffffffffffffffffffffffffffff";
    let digits: Vec<u32> = text.chars().filter_map(|it| it.to_digit(16)).collect();
    let volume: Vec<u8> = digits.chunks(2).map(|pair| (pair[0] * 16 + pair[1]) as u8).collect();
    let empty = [&volume[..72], &[0xff; 56]].concat();
    (volume, empty)
}
