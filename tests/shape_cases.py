#!/usr/bin/env python3
"""Makes the cases `shapes_*`, `trims_*` and `gradients_*`: frames of shape layers.

Usage: tests/shape_cases.py
The frames are those of `shapes.py`, the second evaluator. Those of the tables `TYPED_..` were worked out by hand, are written
here, and the evaluator has to agree with them. Where another case has its numbers worked out by hand, the comment beside it
shows them.
"""
import json
import pathlib

from shapes import frame_of

CASES = pathlib.Path(__file__).resolve().parent / "cases"
HEAD = '<svg xmlns="http://www.w3.org/2000/svg" version="1.1" width="10" height="10" viewBox="0 0 10 10">\n'

RECT = '{"ty":"rc","p":{"k":[0,0]},"s":{"k":[2,2]}}'
BLACK = '{"ty":"fl","c":{"k":[0,0,0]}}'
LINE = '"c":{"k":[0,0,0]},"w":{"k":2}'


def group(*items):
    return '{"ty":"gr","it":[' + ",".join(items) + "]}"


def shape(shapes, more=""):
    return '{"ty":4,"ip":0,"op":60,"ks":{}' + more + ',"shapes":[' + ",".join(shapes) + "]}"


def animation(*layers):
    return '{"w":10,"h":10,"fr":30,"ip":0,"op":60,"layers":[' + ",\n".join(layers) + "]}\n"


def rect(p, s, more=""):
    return f'{{"ty":"rc","p":{{"k":{p}}},"s":{{"k":{s}}}{more}}}'


def oval(p, s, more=""):
    return f'{{"ty":"el","p":{{"k":{p}}},"s":{{"k":{s}}}{more}}}'


def star(kind, points, outer, more=""):
    return f'{{"ty":"sr","sy":{kind},"pt":{{"k":{points}}},"p":{{"k":[5,5]}},"or":{{"k":{outer}}}{more}}}'


def tr(members):
    return '{"ty":"tr",' + members + "}"


def open_path(v, closed="false", i=None, o=None, more=""):
    none = json.dumps([[0, 0]] * len(v))
    return (f'{{"ty":"sh","ks":{{"k":{{"c":{closed},"v":{json.dumps(v)},"i":{json.dumps(i) if i else none},'
            f'"o":{json.dumps(o) if o else none}}}}}{more}}}')


def stroke(more=""):
    return '{"ty":"st",' + LINE + more + "}"


def keys(*pairs, more=""):
    return "[" + ",".join(f'{{"t":{t},"s":{s}{more}}}' for t, s in pairs) + "]"


EASE = ',"o":{"x":0.333,"y":0},"i":{"x":0.667,"y":1}'
SINGLE = {
    # The halves of 3.000001 by 5.000003 are 1.500001 and 2.500002, the odd millionth rounded away from 0.
    "rectangle_of_odd_millionths": ([rect("[1,1]", "[3.000001,5.000003]"), BLACK], 0),
    # The half of 4 is the smaller one, so that the radius 9 becomes 2, and q is 2 - 1.1038.
    "rectangle_with_a_radius_above_the_half": ([rect("[5,5]", "[8,4]", ',"r":{"k":9}'), BLACK], 0),
    "rectangle_with_round_corners": ([rect("[5,5]", "[8,6]", ',"r":{"k":1}'), BLACK], 0),
    "rectangle_with_a_radius_below_zero": ([rect("[5,5]", "[8,6]", ',"r":{"k":-1}'), BLACK], 0),
    "rectangle_of_negative_size": ([rect("[5,5]", "[-8,-6]", ',"r":{"k":1}'), BLACK], 0),
    "rectangle_of_no_size": ([rect("[5,5]", "[0,0]", ',"r":{"k":1}'), BLACK], 0),
    "rectangle_at_the_end_of_the_range": ([rect("[9999999,9999999]", "[8,8]", ',"r":{"k":1}'), BLACK], 0),
    "rectangle_in_reverse": ([rect("[5,5]", "[8,6]", ',"d":3'), BLACK], 0),
    "rectangle_in_another_direction": ([rect("[5,5]", "[8,6]", ',"d":2'), BLACK], 0),
    "ellipse": ([oval("[5,5]", "[6,4]"), BLACK], 0),
    "ellipse_of_negative_size": ([oval("[5,5]", "[-6,4]"), BLACK], 0),
    "ellipse_in_reverse": ([oval("[5,5]", "[6,4]", ',"d":3'), BLACK], 0),
    "star": ([star(1, 5, 4, ',"ir":{"k":2}'), BLACK], 0),
    "star_with_round_points": ([star(1, 5, 4, ',"ir":{"k":2},"os":{"k":50},"is":{"k":-20},"r":{"k":10}'), BLACK], 0),
    "star_of_negative_radii": ([star(1, 3, -4, ',"ir":{"k":-2},"os":{"k":100}'), BLACK], 0),
    "polygon_with_round_points": ([star(2, 6, 4, ',"os":{"k":100}'), BLACK], 0),
    "polygon_ignores_the_inner_radius": ([star(2, 3, 4, ',"ir":{"k":1},"is":{"k":70}'), BLACK], 0),
    "polystar_of_less_than_a_point": ([star(2, 0.4, 4), BLACK], 0),
    "polystar_of_a_hundred_thousand_points": ([star(2, 100000, 4, ',"os":{"k":100}'), BLACK], 0),
    "polystar_in_reverse": ([star(1, 3, 4, ',"ir":{"k":1},"os":{"k":30},"d":3'), BLACK], 0),
    "path_of_no_vertex": ([open_path([]), BLACK], 0),
    "path_of_one_vertex": ([open_path([[1, 2]]), BLACK], 0),
    "closed_path_of_one_vertex": ([open_path([[1, 2]], "true", [[1, 0]], [[0, 1]]), BLACK], 0),
    "closed_path_with_tangents": ([open_path([[1, 1], [8, 1], [4, 8]], "true", [[0, 1], [-1, 0], [2, 2]], [[1, 0], [0, 1], [-2, 1]]), BLACK], 0),
    "open_path_in_reverse": ([open_path([[1, 1], [8, 1], [4, 8]], "false", [[0, 1], [-1, 0], [2, 2]], [[1, 0], [0, 1], [-2, 1]], ',"d":3'), stroke()], 0),
    "path_that_moves": (['{"ty":"sh","ks":{"k":[{"t":0,"s":[{"c":true,"v":[[1,1],[8,1],[4,8]],"i":[[0,0],[0,0],[0,0]],"o":[[1,0],[0,0],[0,0]]}]'
                         + EASE + '},{"t":30,"s":[{"c":true,"v":[[2,2],[9,1],[4,9]],"i":[[0,0],[0,0],[0,1]],"o":[[1,0],[0,0],[0,0]]}]}]}}', BLACK], 10),
    "fill_by_even_odd": ([RECT, '{"ty":"fl","c":{"k":[0.2,0.4,0.6]},"o":{"k":33.3},"r":2}'], 0),
    # 0.00196 times 255 is 0.4998 and gives 0; 0.001961 gives 0.500055 and so 1.
    "color_bytes_are_rounded": ([RECT, '{"ty":"fl","c":{"k":[0.00196,0.001961,2]}}'], 0),
    "stroke_with_defaults": ([RECT, stroke()], 0),
    "stroke_with_ends_and_corners": ([RECT, stroke(',"lc":3,"lj":3,"ml":7'), stroke(',"lc":1,"lj":1,"ml":0.5'), stroke(',"o":{"k":25}')], 0),
    "stroke_of_negative_width": ([RECT, '{"ty":"st","c":{"k":[1,0,0]},"w":{"k":-3}}'], 0),
    "stroke_with_dashes": ([RECT, stroke(',"d":[{"n":"d","v":{"k":3}},{"n":"g","v":{"k":-1}},{"n":"o","v":{"k":9}},{"n":"d","v":{"k":0.5}},{"n":"o","v":{"k":-2}}]')], 0),
    "stroke_with_dashes_of_zero": ([RECT, stroke(',"d":[{"n":"d","v":{"k":0}},{"n":"g","v":{"k":-1}},{"n":"o","v":{"k":9}}]')], 0),
    "stroke_with_an_offset_of_zero": ([RECT, stroke(',"d":[{"n":"d","v":{"k":1}},{"n":"o","v":{"k":0}}]')], 0),
    "style_with_nothing_before_it": ([BLACK, RECT], 0),
    "styles_from_the_last_to_the_first": ([RECT, '{"ty":"fl","c":{"k":[1,0,0]}}', rect("[5,5]", "[2,2]"), '{"ty":"fl","c":{"k":[0,1,0]}}', stroke()], 0),
    "style_paints_nested_leaves": ([group(group(RECT, tr('"p":{"k":[1,0]}')), rect("[4,0]", "[2,2]"), tr('"s":{"k":[50,200]}')), RECT, BLACK], 0),
    "style_in_a_group_paints_that_group_alone": ([RECT, group(oval("[5,5]", "[2,2]"), BLACK, tr('"p":{"k":[1,1]}'))], 0),
    # The leaf is turned, then moved; moved and then turned it would lie elsewhere.
    "maps_from_the_innermost_outwards": ([group(group(RECT, tr('"r":{"k":90}')), tr('"p":{"k":[3,1]}')), group(group(RECT, BLACK, tr('"p":{"k":[3,1]}')), tr('"r":{"k":90}')), BLACK], 0),
    # 0.500001 times 0.5 is 0.250001, and times 0.5 again 0.125001. Rounded once it would be 0.125.
    "group_opacity_is_rounded_at_each_step": ([group(group(RECT, '{"ty":"fl","c":{"k":[0,0,0]},"o":{"k":50.0001}}', tr('"o":{"k":50}')), tr('"o":{"k":50}'))], 0),
    # 0.000005 times 0.5 is 0.000003, and times 0.1 it is 0. The outer group first it would be 0.000001.
    "group_opacity_from_the_innermost_outwards": ([group(group(RECT, '{"ty":"fl","c":{"k":[0,0,0]},"o":{"k":0.0005}}', tr('"o":{"k":50}')), tr('"o":{"k":10}'))], 0),
    "transform_outside_a_group_does_nothing": ([tr('"p":{"k":[5,5]},"o":{"k":1}'), RECT, BLACK], 0),
    "second_transform_of_a_group_does_nothing": ([group(RECT, BLACK, tr('"hd":true,"p":{"k":[7,7]}'), tr('"p":{"k":[1,1]}'), tr('"p":{"k":[5,5]}'))], 0),
    "hidden_items_count_as_absent": ([group(RECT).replace('"ty":"gr"', '"ty":"gr","hd":true'), rect("[5,5]", "[2,2]", ',"hd":true'), oval("[5,5]", "[2,2]"), stroke(',"hd":true'), BLACK], 0),
    "items_that_move": ([oval('[{"t":0,"s":[0,0]' + EASE + '},{"t":20,"s":[9,3]}]', '[{"t":0,"s":[2,2]},{"t":20,"s":[4,8]}]'),
                         '{"ty":"fl","c":{"k":[{"t":0,"s":[1,0,0]' + EASE + '},{"t":20,"s":[0,0,1]}]},"o":{"k":[{"t":0,"s":[100],"h":1},{"t":9,"s":[10]},{"t":20,"s":[60]}]}}'], 11),
    "straight_after_the_map": ([group(open_path([[0, 0], [4, 4]], "false", [[0, 0], [0.0000004, 0]], [[0.000001, 0], [0, 0]]), tr('"s":{"k":[10,10]}')), stroke()], 0),
}
WHOLE = {
    "layer_with_a_parent": (animation('{"ty":3,"ind":1,"ip":0,"op":60,"ks":{"r":{"k":90},"p":{"k":[4,0]}}}', shape([RECT, BLACK], ',"parent":1').replace('"ks":{}', '"ks":{"p":{"k":[2,1]},"o":{"k":40}}')), 0),
    "layers_without_paints": (animation(shape([]), shape([RECT]), shape([BLACK])), 0),
    "groups_in_groups": (animation(shape(["".join('{"ty":"gr","it":[' for _ in range(55)) + RECT + "".join("," + tr('"p":{"k":[0.1,0]}') + "]}" for _ in range(55)), BLACK])), 0),
}

# ---- trims

def square(p="[0,0]", more=""):
    """A square with sides of 20, from its corner at the top right downwards: four sides of a run of 80."""
    return rect(p, "[20,20]", more)


def trim(s, e, more=""):
    return f'{{"ty":"tm","s":{{"k":{s}}},"e":{{"k":{e}}}{more}}}'


def turned_by(degrees):
    return f',"o":{{"k":{degrees}}}'


def black(d):
    return f'<path fill="#000000" d="{d}"/>\n'


def line(d):
    return ('<path fill="none" stroke="#000000" stroke-width="2" stroke-linecap="round" stroke-linejoin="round"'
            f' d="{d}"/>\n')


ALL_SIDES = "M10 -10L10 10L-10 10L-10 -10Z"
RIGHT_AND_BOTTOM = "M10 -10L10 10L-10 10"
SEQUENTIAL = ',"m":2'
POINT = open_path([[1, 2]])
POST = open_path([[0, 0], [0, 10], [0, 20], [0, 30], [0, 40]])
ENLARGED = tr('"s":{"k":[100000,100000]}')
ROUND_STAR = star(1, 5, 4, ',"ir":{"k":2},"os":{"k":50}')
NESTED = [group(group(oval("[0,0]", "[9,4]"), tr('"r":{"k":30}')), ROUND_STAR), rect("[5,5]", "[8,6]", ',"r":{"k":2}')]
TYPED_TRIMS = {
    # S and E are exchanged: 0.25 and 0.75; A is 0.25 + 1 without its whole turn. From the length 20 to 60: two sides.
    "ends_are_exchanged": ([square(), trim(75, 25, turned_by(360)), BLACK], black("M10 10L-10 10L-10 -10")),
    # From 60 to 80 and from 0 to 20: the last side, and then the first.
    "over_the_seam": ([square(), trim(0, 50, turned_by(270)), BLACK], black("M-10 -10L10 -10L10 10")),
    # From 40 to 80, which is the end of the run: the third side and the last one.
    "up_to_the_end": ([square(), trim(0, 50, turned_by(180)), BLACK], black("M-10 10L-10 -10L10 -10")),
    "by_a_negative_angle_over_the_seam": ([square(), trim(0, 50, turned_by(-90)), BLACK], black("M-10 -10L10 -10L10 10")),
    # Half of the first side. Its second control point is at a quarter of the side, so that it is not straight.
    "part_of_a_straight_side": ([square(), trim(0, 12.5), BLACK], black("M10 -10C10 -10 10 -5 10 0")),
    "of_nothing": ([square(), trim(40, 40), BLACK], ""),
    "of_everything": ([square(), trim(0, 100), BLACK], black(ALL_SIDES)),
    "of_nothing_drop_a_contour_without_segments": ([POINT, trim(40, 40), stroke()], ""),
    # 40.00004 per cent is 400000.4 millionths, and 99.99995 per cent 999999.5.
    "of_nothing_by_rounding": ([square(), trim(40, 40.00004), BLACK], ""),
    "of_everything_by_rounding": ([square(), trim(0, 99.99995, turned_by(90)), BLACK], black(ALL_SIDES)),
    "beyond_both_ends_are_limited": ([square(), trim(-50, 150, turned_by(90)), BLACK], black(ALL_SIDES)),
    "from_below_zero_are_limited": ([square(), trim(-50, 50), BLACK], black(RIGHT_AND_BOTTOM)),
    "to_above_the_whole_are_limited": ([square(), trim(50, 150), BLACK], black("M-10 10L-10 -10L10 -10")),
    "without_members_leave_everything": ([square(), '{"ty":"tm"}', BLACK], black(ALL_SIDES)),
    "that_are_hidden": ([square(), trim(0, 50, ',"hd":true'), BLACK], black(ALL_SIDES)),
    "before_the_leaf": ([trim(0, 50), square(), BLACK], black(ALL_SIDES)),
    # The trim is in a group that holds the ellipse alone.
    "outside_the_group_of_the_leaf": ([square(), group(oval("[5,5]", "[2,2]"), trim(0, 0)), BLACK], black(ALL_SIDES)),
    "after_the_style": ([square(), BLACK, trim(0, 50)], black(RIGHT_AND_BOTTOM)),
    "after_the_group_of_the_style": ([group(square(), BLACK), trim(0, 50)], black(RIGHT_AND_BOTTOM)),
    # The contour runs from the same corner the other way.
    "of_a_reversed_leaf": ([square(more=',"d":3'), trim(0, 50), BLACK], black("M10 -10L-10 -10L-10 10")),
    # 160 long; 0.75 of it is 120: the first square whole, and two sides of the second.
    "in_sequence_over_two_groups": ([group(square()), group(square("[40,0]")), BLACK, trim(0, 75, SEQUENTIAL)],
                                    black(ALL_SIDES + "M50 -10L50 10L30 10")),
    "in_parallel_over_two_groups": ([group(square()), group(square("[40,0]")), BLACK, trim(0, 75)],
                                    black("M10 -10L10 10L-10 10L-10 -10M50 -10L50 10L30 10L30 -10")),
    # From 40 to 120 of 160: the last two sides of the first square, and the first two of the second.
    "in_sequence_from_one_leaf_to_the_next": ([square(), square("[40,0]"), trim(0, 50, SEQUENTIAL + turned_by(90)), BLACK],
                                              black("M-10 10L-10 -10L10 -10M50 -10L50 10L30 10")),
    # From 120 to 160 and from 0 to 40. Contours stay in order of place, and not in that of the intervals.
    "in_sequence_over_the_seam": ([square(), square("[40,0]"), trim(0, 50, SEQUENTIAL + turned_by(270)), BLACK],
                                  black(RIGHT_AND_BOTTOM + "M30 10L30 -10L50 -10")),
    # From 40 to 160 and from 0 to 20: both have parts of the first square, and the second is whole in one of them.
    "in_sequence_of_a_square_in_both_intervals": (
        [square(), square("[40,0]"), trim(0, 87.5, SEQUENTIAL + turned_by(90)), BLACK],
        black("M-10 10L-10 -10L10 -10L10 10M50 -10L50 10L30 10L30 -10Z")),
    # The first leaf has no contours any more, so that the run is the second one.
    "in_sequence_after_a_leaf_that_is_trimmed_away": (
        [group(square(), trim(40, 40)), square("[40,0]"), trim(0, 50, SEQUENTIAL), BLACK],
        black("M50 -10L50 10L30 10")),
    # The squares are equally long before their maps: half of the run is the first one.
    "are_measured_before_the_maps": ([group(square(), tr('"s":{"k":[200,200]}')), square(), trim(0, 50, SEQUENTIAL), BLACK],
                                     black("M20 -20L20 20L-20 20L-20 -20Z")),
    # The inner trim leaves two sides, and the outer one the first of them.
    "from_the_innermost_outwards": ([group(square(), trim(0, 50)), trim(0, 50, ',"m":1'), BLACK], black("M10 -10L10 10")),
    # First the sides 1 and 2, of these the second; exchanged first the sides 3 and 4, of these the first.
    "inner_first_half_and_outer_second_half": ([group(square(), trim(0, 50)), trim(50, 100), BLACK], black("M10 10L-10 10")),
    "inner_second_half_and_outer_first_half": ([group(square(), trim(50, 100)), trim(0, 50), BLACK], black("M-10 10L-10 -10")),
    "of_one_list_in_order_of_place": ([square(), trim(0, 50), trim(50, 100), BLACK], black("M10 10L-10 10")),
    "of_one_list_in_the_other_order": ([square(), trim(50, 100), trim(0, 50), BLACK], black("M-10 10L-10 -10")),
    # Each leaf before the trim that acts on it: the group's trim takes the second square alone, and what it leaves is 40 long.
    # From 60 to 120 of 80 and 40: the last side of the first square, and the two sides of the second that are left.
    "in_sequence_after_a_trim_of_one_leaf": ([square(), group(square("[40,0]"), trim(0, 50)), trim(50, 100, SEQUENTIAL), BLACK],
                                             black("M-10 -10L10 -10M50 -10L50 10L30 10")),
    # 40 long, from 30 to 40 and from 0 to 10: two contours of an open one, that of the first interval first.
    "of_an_open_path_over_the_seam": ([POST, trim(0, 50, turned_by(270)), stroke()], line("M0 30L0 40M0 0L0 10")),
    # Its run is 20 long, and from 5 to 15 are the second half of the one contour and the first of the other.
    "of_two_contours_of_one_leaf": ([POST, trim(0, 50, turned_by(270)), trim(25, 75), stroke()],
                                    line("M0 35C0 37.5 0 40 0 40M0 0C0 0 0 2.5 0 5")),
    "drop_a_contour_without_segments": ([POINT, square(), trim(0, 50), BLACK], black(RIGHT_AND_BOTTOM)),
    "of_everything_keep_a_contour_without_segments": ([POINT, trim(0, 100), BLACK], black("M1 2")),
    "drop_a_contour_of_length_zero": ([open_path([[1, 2]], "true"), square(), trim(0, 50, SEQUENTIAL), BLACK],
                                      black(RIGHT_AND_BOTTOM)),
    "of_everything_keep_a_contour_of_length_zero": ([open_path([[1, 2]], "true"), trim(0, 100), BLACK], black("M1 2Z")),
    # The second of the four sides has no length.
    "leave_out_a_side_of_length_zero": ([open_path([[0, 0], [0, 10], [0, 10], [0, 20], [0, 40]]), trim(0, 50), stroke()],
                                        line("M0 0L0 10L0 20")),
    # 0.4 long: the end is at 399999.6 millionths, rounded 400,000, so that the contour is whole in the interval.
    "of_a_small_contour_that_is_whole_by_rounding": ([rect("[0,0]", "[0.1,0.1]"), trim(0, 99.9999), BLACK],
                                                     black("M0.05 -0.05L0.05 0.05L-0.05 0.05L-0.05 -0.05Z")),
    # 0.4 long, from 0.2 to 0.4 and from 0 to 199999.6 millionths, rounded 200,000: the two meet in one open contour.
    "that_meet_stay_open": ([rect("[0,0]", "[0.1,0.1]"), trim(0, 99.9999, turned_by(180)), BLACK],
                            black("M-0.05 0.05L-0.05 -0.05L0.05 -0.05L0.05 0.05L-0.05 0.05")),
}
TRIMS = {
    "within_curves": ([oval("[0,0]", "[20,14]"), trim(10, 60), stroke()], 0),
    "within_one_curve": ([oval("[0,0]", "[20,14]"), trim(3, 22, turned_by(8)), stroke()], 0),
    "within_curves_over_the_seam": ([oval("[0,0]", "[20,14]"), trim(10, 60, turned_by(200.5)), BLACK], 0),
    # Enlarged by 1,000, so that the millionths of the points are printed.
    "within_curves_to_the_millionth": ([group(oval("[0,0]", "[20,14]"), trim(10, 60), ENLARGED), stroke()], 0),
    # 0.00018 degrees are half of a millionth of a turn, rounded away from 0: A is 0.999999.
    "turned_by_half_of_a_millionth": ([group(square(), trim(0, 50, turned_by(-0.00018)), ENLARGED), stroke()], 0),
    "of_one_side_over_the_seam": ([open_path([[0, 0], [0, 40]]), trim(0, 50, turned_by(250)), stroke()], 0),
    "of_one_closed_curve_over_the_seam": (
        [open_path([[1, 2]], "true", [[-9, 4]], [[9, 4]]), trim(0, 50, turned_by(250)), stroke()], 0),
    # 10^7 / 360 is 27777.777778 turns, so that A is 0.777778; the other way it is 0.222222.
    "turned_by_ten_million_degrees": ([square(), trim(0, 50, turned_by(10000000)), BLACK], 0),
    "turned_by_minus_ten_million_degrees": ([square(), trim(0, 50, turned_by(-10000000)), BLACK], 0),
    "of_a_curve_that_returns": (
        [open_path([[0, 0], [0, 0]], "false", [[0, 0], [-9, 7]], [[9, 7], [0, 0]]), trim(20, 70), stroke()], 0),
    "of_a_curve_with_a_loop": (
        [open_path([[0, 0], [10, 0]], "false", [[0, 0], [-30, 20]], [[30, 20], [0, 0]]), trim(12.34, 87.6543), stroke()], 0),
    # Enlarged by 1,000 as well: points and chords of a few millionths, of which some have no length.
    "of_millionths": (
        [group(open_path([[0, 0], [0.000007, 0.000003]]), oval("[0,0]", "[0.00002,0.000048]"), trim(20, 71), ENLARGED), stroke()], 0),
    # The first and the last chords have no length, but the ends are at the first and the last step.
    "to_the_end_of_a_line_of_millionths": ([group(open_path([[0, 0], [0.00001, 0.000005]]), trim(30, 100), ENLARGED), stroke()], 0),
    "from_the_start_of_a_line_of_millionths": ([group(open_path([[0, 0], [0.00001, 0.000005]]), trim(0, 70), ENLARGED), stroke()], 0),
    "at_the_ends_of_the_range": (
        [open_path([[-9999999, -9999999], [9999999, 9999999], [9999999, -9999999]]), trim(1, 99, turned_by(30)), stroke()], 0),
    "in_sequence_over_nested_groups": ([*NESTED, trim(15, 70, SEQUENTIAL + turned_by(200)), stroke()], 0),
    "in_parallel_over_nested_groups": ([*NESTED, trim(15, 70, turned_by(200)), stroke()], 0),
    # One in sequence within one in parallel within one in sequence, with styles between them and a leaf that some do not reach.
    "of_every_mode_in_nested_groups": (
        [group(group(oval("[0,0]", "[9,4]"), oval("[9,0]", "[4,4]"), trim(10, 80, SEQUENTIAL), BLACK),
               square(), trim(5, 95, turned_by(100)), stroke()),
         star(2, 6, 4), trim(30, 60, SEQUENTIAL + turned_by(250)), BLACK, oval("[1,1]", "[3,3]"), stroke()], 0),
    # Each leaves out the last hundredth of what the one within it has left.
    "in_fifty_nested_groups": (['{"ty":"gr","it":[' * 50 + square() + f',{trim(0, 99)}]}}' * 50, stroke()], 0),
    "that_move": (
        [oval("[0,0]", "[20,14]"),
         trim(keys((0, "[0]"), (40, "[60]"), more=EASE), keys((0, "[10]"), (30, "[100]")),
              turned_by(keys((5, "[0]"), (50, "[720]"), more=EASE))), stroke()], 17),
    "of_a_leaf_that_moves": (
        [rect(keys((0, "[0,0]"), (20, "[9,3]")), "[8,6]"), oval("[0,0]", keys((0, "[2,2]"), (20, "[4,8]"))),
         trim(20, 70, SEQUENTIAL), stroke()], 11),
    "of_a_stroke_with_dashes": ([square(), trim(10, 60), stroke(',"d":[{"n":"d","v":{"k":3}},{"n":"g","v":{"k":1}}]')], 0),
}


# ---- gradients

def shading(flat, count=2, ty="gf", s="[0,0]", e="[10,0]", more=""):
    return (f'{{"ty":"{ty}","s":{{"k":{s}}},"e":{{"k":{e}}},"g":{{"p":{count},"k":{{"k":{flat}}}}}{more}}}')


def element(name, places, *stops, number=1):
    """The text of a gradient with stops of an offset, a color and an opacity as they are written."""
    lines = [f'<stop offset="{x}" stop-color="{color}" stop-opacity="{alpha}"/>\n' for x, color, alpha in stops]
    return f'<{name} id="i{number}" gradientUnits="userSpaceOnUse" {places}>\n' + "".join(lines) + f"</{name}>\n"


def linear(*stops, number=1):
    return element("linearGradient", 'x1="0" y1="0" x2="10" y2="0"', *stops, number=number)


def radial(places):
    return element("radialGradient", places, *RED_TO_BLUE_STOPS) + filled()


def filled(number=1, d="M1 -1L1 1L-1 1L-1 -1Z"):
    return f'<path fill="url(#i{number})" d="{d}"/>\n'


RED_TO_BLUE = "[0,1,0,0,1,0,0,1]"
RED_TO_BLUE_STOPS = ("0", "#ff0000", "1"), ("1", "#0000ff", "1")
HALF_FADED = "[0,1,0,0,1,0,0,1,0.5,0.5]"
RADIAL = ',"t":2'
DIAMOND = '{"ty":"sr","sy":2,"pt":{"k":4},"p":{"k":[0,0]},"or":{"k":10}}'
HALF_FADED_TEXT = """<linearGradient id="i1" gradientUnits="userSpaceOnUse" x1="0" y1="0" x2="10" y2="0">
<stop offset="0" stop-color="#ff0000" stop-opacity="0.5"/>
<stop offset="0.5" stop-color="#800080" stop-opacity="0.5"/>
<stop offset="1" stop-color="#0000ff" stop-opacity="0.5"/>
</linearGradient>
"""
TYPED_GRADIENTS = {
    # The color at 0.5 is 0.5, 0, 0.5, and 127.5 is rounded to 128.
    "opacity_stop_between_two_colors": ([DIAMOND, shading(HALF_FADED, more=',"t":1')],
                                        HALF_FADED_TEXT + '<path fill="url(#i1)" d="M0 -10L10 0L0 10L-10 0Z"/>\n'),
    "stroke": ([DIAMOND, shading(HALF_FADED, ty="gs", more=',"t":1,"w":{"k":1},"lc":2,"lj":2')],
               HALF_FADED_TEXT + '<path fill="none" stroke="url(#i1)" stroke-width="1" stroke-linecap="round"'
               ' stroke-linejoin="round" d="M0 -10L10 0L0 10L-10 0Z"/>\n'),
    "one_stop": ([RECT, shading("[0.25,0,0.5,1]", 1)], linear(("0.25", "#0080ff", "1")) + filled()),
    # 0.2 is raised to 0.5, and 1.5 limited to 1.
    "offsets_that_fall": (
        [RECT, shading("[0.5,1,0,0,0.2,0,1,0,1.5,0,0,1]", 3)],
        linear(("0.5", "#ff0000", "1"), ("0.5", "#00ff00", "1"), ("1", "#0000ff", "1")) + filled()),
    "offsets_of_opacity_that_fall": (
        [RECT, shading("[0,1,0,0,1,0,0,1,0.5,0.25,-3,0.75]")],
        linear(("0", "#ff0000", "0.25"), ("0.5", "#800080", "0.25"), ("0.5", "#800080", "0.75"), ("1", "#0000ff", "0.75")) + filled()),
    "numbers_beyond_their_range": (
        [RECT, shading("[-1,2,-1,0,9,-0.5,0,7,0.5,3,0.5,-3]")],
        linear(("0", "#ff0000", "1"), ("0.5", "#800080", "1"), ("0.5", "#800080", "0"), ("1", "#0000ff", "0")) + filled()),
    # A quarter of 255 is 63.75 and three quarters 191.25. Outside of its stops the opacity is that of the nearest one.
    "opacity_stops_at_other_offsets": (
        [RECT, shading("[0,0,0,0,1,1,1,1,0.25,0,0.75,1]")],
        linear(("0", "#000000", "0"), ("0.25", "#404040", "0"), ("0.75", "#bfbfbf", "1"), ("1", "#ffffff", "1")) + filled()),
    "opacity_stops_at_the_offsets_of_colors": (
        [RECT, shading("[0,1,0,0,0.5,0,1,0,1,0,0,1,0,1,0.5,0.25,1,0]", 3)],
        linear(("0", "#ff0000", "1"), ("0.5", "#00ff00", "0.25"), ("1", "#0000ff", "0")) + filled()),
    # 0.2 + 0.6 / 2.
    "opacity_between_its_stops": (
        [RECT, shading("[0,1,0,0,0.5,0,1,0,1,0,0,1,0,0.2,1,0.8]", 3)],
        linear(("0", "#ff0000", "0.2"), ("0.5", "#00ff00", "0.5"), ("1", "#0000ff", "0.8")) + filled()),
    # At 0.25 the color is 0.75, 0, 0.25: 191.25 and 63.75.
    "opacity_stops_within_colors": (
        [RECT, shading("[0,1,0,0,1,0,0,1,0.25,0.8,0.75,0.4]")],
        linear(("0", "#ff0000", "0.8"), ("0.25", "#bf0040", "0.8"), ("0.75", "#4000bf", "0.4"), ("1", "#0000ff", "0.4")) + filled()),
    # At 0.5 the alpha is 0.8 - 0.4 / 2; at 0.25 the color is 0.5, 0.5, 0.
    "third_color_within_opacity_stops": (
        [RECT, shading("[0,1,0,0,0.5,0,1,0,1,0,0,1,0.25,0.8,0.75,0.4]", 3)],
        linear(("0", "#ff0000", "0.8"), ("0.25", "#808000", "0.8"), ("0.5", "#00ff00", "0.6"), ("0.75", "#008080", "0.4"),
               ("1", "#0000ff", "0.4")) + filled()),
    "third_color_written_after_the_last_offset": (
        [RECT, shading("[0,1,0,0,1,0,0,1,0.5,0,1,0,0.25,0.8,0.75,0.4]", 3)],
        linear(("0", "#ff0000", "0.8"), ("0.25", "#bf0040", "0.8"), ("0.75", "#4000bf", "0.4"), ("1", "#0000ff", "0.4"),
               ("1", "#00ff00", "0.4")) + filled()),
    # A third is 0.333333, of which 255 is 84.999915; two thirds are 0.666667, and 170.000085.
    "thirds_are_rounded": (
        [RECT, shading("[0,0,0,0,0.3,1,1,1,0.1,1,0.2,0,0.5,1]")],
        linear(("0", "#000000", "1"), ("0.1", "#555555", "1"), ("0.2", "#aaaaaa", "0"), ("0.3", "#ffffff", "0.333333"),
               ("0.5", "#ffffff", "1")) + filled()),
    "colors_that_meet": (
        [RECT, shading("[0,1,0,0,0.5,1,0,0,0.5,0,0,1,1,0,0,1,0,0,1,1]", 4)],
        linear(("0", "#ff0000", "0"), ("0.5", "#ff0000", "0.5"), ("0.5", "#0000ff", "0.5"), ("1", "#0000ff", "1")) + filled()),
    # Of two colors at 0.5 the last one counts from there on.
    "opacity_stop_after_colors_that_meet": (
        [RECT, shading("[0,1,0,0,0.5,0,1,0,0.5,0,0,1,0.75,0.5]", 3)],
        linear(("0", "#ff0000", "0.5"), ("0.5", "#00ff00", "0.5"), ("0.5", "#0000ff", "0.5"), ("0.75", "#0000ff", "0.5")) + filled()),
    "opacities_that_meet": (
        [RECT, shading("[0,1,0,0,1,0,0,1,0.5,1,0.5,0]")],
        linear(("0", "#ff0000", "1"), ("0.5", "#800080", "1"), ("0.5", "#800080", "0"), ("1", "#0000ff", "0")) + filled()),
    "opacities_that_meet_at_a_color": (
        [RECT, shading("[0,1,0,0,0.5,0,1,0,1,0,0,1,0.5,0.2,0.5,0.8,1,0]", 3)],
        linear(("0", "#ff0000", "0.2"), ("0.5", "#00ff00", "0.8"), ("1", "#0000ff", "0")) + filled()),
    "linear_without_a_length": (
        [RECT, shading(RED_TO_BLUE, s="[3,-2.5]", e="[3,-2.5]")],
        element("linearGradient", 'x1="3" y1="-2.5" x2="3" y2="-2.5"', *RED_TO_BLUE_STOPS) + filled()),
    # 3, 4 and 5; without a highlight the focus is the center.
    "radial": ([RECT, shading(RED_TO_BLUE, s="[1,1]", e="[4,5]", more=RADIAL)], radial('cx="1" cy="1" r="5" fx="1" fy="1"')),
    # The root of 2 is 1.41421356..: rounded down, and printed with three decimals.
    "radius_is_rounded_down": (
        [RECT, shading(RED_TO_BLUE, e="[1,1]", more=RADIAL)], radial('cx="0" cy="0" r="1.414" fx="0" fy="0"')),
    # (10, 0) is turned clockwise to (0, 10), and half of it lies below the center.
    "highlight_at_an_angle": (
        [RECT, shading(RED_TO_BLUE, s="[2,1]", e="[12,1]", more=RADIAL + ',"h":{"k":50},"a":{"k":90}')],
        radial('cx="2" cy="1" r="10" fx="2" fy="6"')),
    "highlight_is_limited": (
        [RECT, shading(RED_TO_BLUE, s="[2,1]", e="[12,1]", more=RADIAL + ',"h":{"k":200}')],
        radial('cx="2" cy="1" r="10" fx="11.9" fy="1"')),
    "negative_highlight_is_limited": (
        [RECT, shading(RED_TO_BLUE, s="[2,1]", e="[12,1]", more=RADIAL + ',"h":{"k":-200}')],
        radial('cx="2" cy="1" r="10" fx="-7.9" fy="1"')),
    "radial_without_a_radius": (
        [RECT, shading(RED_TO_BLUE, s="[2,1]", e="[2,1]", more=RADIAL + ',"h":{"k":50},"a":{"k":45}')],
        radial('cx="2" cy="1" r="0" fx="2" fy="1"')),
    "highlight_of_a_linear_one_does_nothing": (
        [RECT, shading(RED_TO_BLUE, more=',"h":{"k":50},"a":{"k":45}')], linear(*RED_TO_BLUE_STOPS) + filled()),
    # Each difference is limited to 10^7, and so is the radius of more than that.
    "radius_is_limited": (
        [RECT, shading(RED_TO_BLUE, s="[-9999999,-9999999]", e="[9999999,9999999]", more=RADIAL)],
        radial('cx="-9999999" cy="-9999999" r="10000000" fx="-9999999" fy="-9999999"')),
    # The difference is limited to (10^7, 0), and turned by 60 degrees it is (5000000, 8660250): half of it is the highlight.
    "highlight_of_a_limited_radius": (
        [RECT, shading(RED_TO_BLUE, s="[-9999999,0]", e="[9999999,0]", more=RADIAL + ',"h":{"k":50},"a":{"k":60}')],
        radial('cx="-9999999" cy="0" r="10000000" fx="-7499999" fy="4330125"')),
    # The last style is drawn first. The stroke in the group has nothing before it, and takes no identifier.
    "identifiers_of_those_that_are_written": (
        [RECT, shading(RED_TO_BLUE), group(shading(HALF_FADED, ty="gs", more=',"w":{"k":1}')), shading("[0,0,0,0]", 1)],
        linear(("0", "#000000", "1")) + filled() + linear(*RED_TO_BLUE_STOPS, number=2) + filled(2)),
    "trimmed_away_take_no_identifier": (
        [group(RECT, shading(RED_TO_BLUE)), group(RECT, shading(HALF_FADED), trim(40, 40)), shading("[0,0,0,0]", 1)],
        linear(("0", "#000000", "1")) + filled() + linear(*RED_TO_BLUE_STOPS, number=2) + filled(2)),
    "hidden_take_no_identifier": (
        [RECT, shading(RED_TO_BLUE), shading(RED_TO_BLUE, more=',"hd":true')], linear(*RED_TO_BLUE_STOPS) + filled()),
    # The stops of the first keyframe are held, since the next has two numbers more.
    "of_another_number_of_stops_is_held": (
        [RECT, shading(keys((-5, RED_TO_BLUE), (5, HALF_FADED)))], linear(*RED_TO_BLUE_STOPS) + filled()),
}
COLORS = ",".join(f"{k / 1023:.6f},{k % 5 / 4},{k % 3 / 2},{k % 2}" for k in range(1024))
ALPHAS = ",".join(f"{(k + 0.5) / 999:.6f},{k % 7 / 8}" for k in range(999))
SHADES = ('[{"t":0,"s":[0,1,0,0,0.4,0,1,0,0.2,0,0.9,0.25],"o":{"x":[0.1,0.9],"y":[0.7,0]},"i":{"x":[0.5,0.6],"y":[1.2,1]}},'
          '{"t":20,"s":[0.3,0,0,1,1,0.9,0.1,0.4,0,1,0.7,0]}]')
GRADIENTS = {
    "of_1024_stops": ([RECT, shading(f"[{COLORS}]", 1024)], 0),
    "of_1024_stops_and_999_opacities": ([RECT, shading(f"[{COLORS},{ALPHAS}]", 1024)], 0),
    "that_move": (
        [oval("[0,0]", "[9,7]"),
         shading(SHADES, s=keys((0, "[0,0]"), (30, "[9,3]"), more=EASE + ',"to":[1,5],"ti":[2,-3]'),
                 e=keys((0, "[5,5]"), (20, "[8,1]")),
                 more=RADIAL + ',"h":{"k":' + keys((0, "[-30]"), (20, "[80]"), more=EASE) + "}"
                 + ',"a":{"k":' + keys((0, "[0]"), (40, "[500]")) + '},"o":{"k":' + keys((0, "[100]"), (20, "[40]")) + "}")], 11),
    # By their handles all numbers move past their last values, and are limited after that.
    "that_overshoot": ([RECT, shading(SHADES)], 14),
    "fill_by_even_odd": ([RECT, shading(HALF_FADED, more=',"o":{"k":33.3},"r":2')], 0),
    "fill_by_nonzero": ([RECT, shading(HALF_FADED, more=',"o":{"k":33.3},"r":1')], 0),
    "stroke_with_dashes": (
        [RECT, shading(HALF_FADED, ty="gs", more=RADIAL + ',"w":{"k":2.5},"o":{"k":50},"lc":1,"lj":1,"ml":3,"h":{"k":10},"a":{"k":30},'
                       '"d":[{"n":"d","v":{"k":3}},{"n":"g","v":{"k":1}},{"n":"o","v":{"k":-0.5}}]')], 0),
    "in_a_group_with_opacity_and_matrix": (
        [group(RECT, shading(HALF_FADED, more=',"o":{"k":40}'), tr('"p":{"k":[3,1]},"r":{"k":30},"o":{"k":25}')),
         shading(RED_TO_BLUE, ty="gs", more=',"w":{"k":1}')], 0),
    "of_both_kinds_over_a_trim": (
        [oval("[0,0]", "[9,4]"), shading(HALF_FADED, s="[-1,2]"), trim(20, 90),
         shading(RED_TO_BLUE, ty="gs", e="[2,9]", more=RADIAL + ',"w":{"k":1},"h":{"k":99},"a":{"k":-200}')], 0),
    "highlight_of_rounded_parts": (
        [RECT, shading(RED_TO_BLUE, s="[0.000001,5]", e="[3.333333,7.777777]",
                       more=RADIAL + ',"h":{"k":33.3333},"a":{"k":12.3456}')], 0),
}
WHOLE_GRADIENTS = {
    # The last layer is drawn first, and the numbers of identifiers run on from layer to layer.
    "identifiers_run_on_over_layers": (animation(shape([RECT, shading(RED_TO_BLUE), shading("[0,1,1,1]", 1)]), shape([RECT, BLACK]),
                                                 shape([RECT, shading(HALF_FADED)])), 0),
}


# ---- folders

def write(name, document, time, frame):
    case = CASES / name
    case.mkdir(exist_ok=True)
    (case / "args").write_text(f"frame\n-\n{time}\n")
    (case / "stdin").write_text(document)
    (case / "stdout").write_text(frame)


def make(name, document, time):
    write(name, document, time, frame_of(document, time))


def make_typed(name, items, layer):
    document, frame = animation(shape(items)), HEAD + "<g>\n" + layer + "</g>\n</svg>\n"
    assert frame_of(document, 0) == frame, f"{name}: the evaluator has {frame_of(document, 0)}"
    write(name, document, 0, frame)


def main():
    for kind, single in (("shapes", SINGLE), ("trims", TRIMS), ("gradients", GRADIENTS)):
        for name, (items, time) in single.items():
            make(f"{kind}_{name}", animation(shape(items)), time)
    for kind, whole in (("shapes", WHOLE), ("gradients", WHOLE_GRADIENTS)):
        for name, (document, time) in whole.items():
            make(f"{kind}_{name}", document, time)
    for kind, typed in (("trims", TYPED_TRIMS), ("gradients", TYPED_GRADIENTS)):
        for name, (items, layer) in typed.items():
            make_typed(f"{kind}_{name}", items, layer)


if __name__ == "__main__":
    main()
