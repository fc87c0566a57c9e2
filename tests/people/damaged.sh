# shellcheck shell=bash disable=SC2034
# Sheets as people spoil them, each from the gateway's: a name, and what makes it.

gateway=examples/gateway.sheet

spoilt_sheets=(good_sheet blanks_for_tabs a_byte_order_mark utf_16_little utf_16_big cr_lf cr_lf_in_a_label a_comment an_empty_line a_capital
  no_final_newline an_empty_file too_long a_box_missing a_box_too_many an_action_missing an_action_too_many a_step_missing a_step_too_many
  a_flow_after_a_view a_view_missing a_view_too_many the_end_missing only_the_first_line two_sheet_lines a_blank_before a_tab_at_the_end
  a_tab_in_a_label a_field_missing two_tabs a_number_with_a_zero a_number_with_a_sign a_number_too_large a_word_for_a_number no_states too_many_states
  too_many_actions too_many_boxes a_start_too_large a_next_state_too_large an_id_twice an_unknown_owner an_unknown_arrow another_view
  an_empty_label a_long_label an_umlaut_in_a_label an_escape_in_a_label a_very_long_line the_same_label_twice an_odd_label
  broken_output broken_respect broken_step broken_by_itself nothing_needed)

good_sheet() { cat $gateway; }
blanks_for_tabs() { tr '\t' ' ' <$gateway; }
a_byte_order_mark() { printf '\xef\xbb\xbf' && cat $gateway; }
utf_16_little() { printf '\xff\xfe' && iconv -t UTF-16LE $gateway; }
utf_16_big() { printf '\xfe\xff' && iconv -t UTF-16BE $gateway; }
cr_lf() { sed 's/$/\r/' $gateway; }
cr_lf_in_a_label() { sed '2s/$/\r/' $gateway; }
a_comment() { sed '6i # the actions' $gateway; }
an_empty_line() { sed '5G' $gateway; }
a_capital() { sed '3s/box/Box/' $gateway; }
no_final_newline() { head -c -1 $gateway; }
an_empty_file() { :; }
too_long() { cat $gateway && yes $'flow\t1\t2' | head -c 40000; }
a_box_missing() { sed '3d' $gateway; }
a_box_too_many() { sed '5a box\t5\tLog' $gateway; }
an_action_missing() { sed '9d' $gateway; }
an_action_too_many() { sed '9a act\t4' $gateway; }
a_step_missing() { sed '12d' $gateway; }
a_step_too_many() { sed '29p' $gateway; }
a_flow_after_a_view() { sed '40i flow\t1\t2' $gateway; }
a_view_missing() { sed '36d' $gateway; }
a_view_too_many() { sed '$p' $gateway; }
the_end_missing() { head -n 50 $gateway; }
only_the_first_line() { head -n 1 $gateway; }
two_sheet_lines() { sed '1p' $gateway; }
a_blank_before() { sed '6s/^/ /' $gateway; }
a_tab_at_the_end() { sed '6s/$/\t/' $gateway; }
a_tab_in_a_label() { sed '2s/Red/Red\tone/' $gateway; }
a_field_missing() { sed '10s/\t0$//' $gateway; }
two_tabs() { sed '10s/\t1/\t\t1/' $gateway; }
a_number_with_a_zero() { sed '30s/2$/02/' $gateway; }
a_number_with_a_sign() { sed '10s/0$/-1/' $gateway; }
a_number_too_large() { sed '10s/0$/65536/' $gateway; }
a_word_for_a_number() { sed '30s/2$/Crypto/' $gateway; }
no_states() { sed '1s/5/0/' $gateway; }
too_many_states() { sed '1s/5/129/' $gateway; }
too_many_actions() { sed $'1s/\t4\t/\t33\t/' $gateway; }
too_many_boxes() { sed $'1s/\t4\t4/\t4\t17/' $gateway; }
a_start_too_large() { sed '1s/0$/5/' $gateway; }
a_next_state_too_large() { sed '10s/1\t0$/5\t0/' $gateway; }
an_id_twice() { sed '4s/3/2/' $gateway; }
an_unknown_owner() { sed '7s/2/20/' $gateway; }
an_unknown_arrow() { sed '30s/1/0/' $gateway; }
another_view() { sed '39s/2/1/' $gateway; }
an_empty_label() { sed '2s/Red//' $gateway; }
a_long_label() { sed '2s/Red/The red side of the gateway, where messages come in/' $gateway; }
an_umlaut_in_a_label() { sed '2s/Red/G\xc3\xa4teway/' $gateway; }
an_escape_in_a_label() { sed '2s/Red/R\x1b[31med/' $gateway; }
a_very_long_line() { printf '%s%0300d\t9 %0300d\n' $'sheet\t' 7 8; }
the_same_label_twice() { sed '5s/Black/Red/' $gateway; }
an_odd_label() { sed '5s/Black/Red -> Log: no drawn path/; 2s/Red/ "\\ /' $gateway; }
broken_output() { cat examples/broken-output.sheet; }
broken_respect() { cat examples/gateway-log.sheet; }
broken_step() { cat examples/broken-step.sheet; }
broken_by_itself() { printf '%s\n' $'sheet\t3\t1\t1\t0' $'box\t7\tAlone' $'act\t7' $'go\t0\t0\t2\t0' $'go\t1\t0\t1\t0' $'go\t2\t0\t2\t0' $'view\t7\t0\t0' $'view\t7\t1\t0' $'view\t7\t2\t1'; }
nothing_needed() { printf '%s\n' $'sheet\t1\t1\t1\t0' $'box\t7\tAlone' $'act\t7' $'go\t0\t0\t0\t0' $'view\t7\t0\t0'; }
