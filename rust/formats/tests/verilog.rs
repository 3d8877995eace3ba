//! Modules and test benches in Verilog. Icarus Verilog runs them in rust/peers.

use formats::verilog;
use reference::allowed_sizes;
use reference::generate::Generator;
use sitgurp::Net;

const SMALL: &str = "\
// A tree of 3 levels and 2 inputs: reg, b.
module tree (
    input wire [1:0] reg_,
    input wire [1:0] b,
    output reg [1:0] ink
);

    // gate 1
    always @* begin
        case ({b, reg_})
            {2'd0, 2'd0}: ink = 2'd0;
            {2'd0, 2'd1}: ink = 2'd1;
            {2'd0, 2'd2}: ink = 2'd2;
            {2'd1, 2'd0}: ink = 2'd1;
            {2'd1, 2'd1}: ink = 2'd1;
            {2'd1, 2'd2}: ink = 2'd2;
            {2'd2, 2'd0}: ink = 2'd2;
            {2'd2, 2'd1}: ink = 2'd2;
            {2'd2, 2'd2}: ink = 2'd0;
            default: ink = {2{1'bx}};
        endcase
    end
endmodule

`ifndef SYNTHESIS
module tree_test;
    reg [1:0] reg_;
    reg [1:0] b;
    wire [1:0] ink;
    integer wrong_rows;

    tree the_tree (.reg_(reg_), .b(b), .ink(ink));

    task check_row;
        input [3:0] the_levels;
        input [1:0] due_ink;
        begin
            {reg_, b} = the_levels;
            #1;
            if (ink !== due_ink) begin
                wrong_rows = wrong_rows + 1;
                $display(\"wrong: reg=%0d b=%0d: ink is %0d, due is %0d\", reg_, b, ink, due_ink);
            end
        end
    endtask

    initial begin
        wrong_rows = 0;
        check_row({2'd0, 2'd0}, 2'd0);
        check_row({2'd0, 2'd1}, 2'd1);
        check_row({2'd0, 2'd2}, 2'd2);
        check_row({2'd1, 2'd0}, 2'd1);
        check_row({2'd1, 2'd1}, 2'd1);
        check_row({2'd1, 2'd2}, 2'd2);
        check_row({2'd2, 2'd0}, 2'd2);
        check_row({2'd2, 2'd1}, 2'd2);
        check_row({2'd2, 2'd2}, 2'd0);
        if (wrong_rows == 0)
            $display(\"ok: all 9 rows\");
        else
            $display(\"failed: %0d of 9 rows\", wrong_rows);
        $finish;
    end
endmodule
`endif
";

#[test]
fn a_module_and_its_test_bench() {
    let net: Net = "levels inputs\n3 2\nreg b\nleft right table\nb reg 012112220\n"
        .parse()
        .expect("a net");
    assert_eq!(verilog(&net, "tree"), SMALL);
}

/// A line for every row, and a case for every digit.
#[test]
fn every_row_is_compared() {
    let mut generator = Generator::new(45);
    for (m, n) in allowed_sizes() {
        let (m, n) = (m as usize, n as usize);
        let net = Net::read(&generator.net_sheet(m, n)).expect("a net");
        let text = verilog(&net, "tree");
        let rows: Vec<&str> = text
            .lines()
            .filter(|line| line.contains("check_row({"))
            .collect();
        assert_eq!(rows.len(), m.pow(n as u32));
        for (row, line) in net.table().rows().zip(rows) {
            let digits: Vec<u8> = line
                .split("'d")
                .skip(1)
                .map(|rest| rest.as_bytes()[0] - b'0')
                .collect();
            assert_eq!((&digits[..n], digits[n]), (&row.levels[..], row.ink));
        }
        assert_eq!(text.matches("}: ").count(), net.gates().len() * m * m);
    }
}
