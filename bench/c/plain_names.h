/*
 * Included before plain.c where it is linked beside the library: the same
 * twenty-nine functions under names of their own.
 */
#define maxeltu_verdict plain_verdict
#define maxeltu_consistency plain_consistency
#define maxeltu_min_demand plain_min_demand
#define maxeltu_max_supply plain_max_supply
#define maxeltu_test plain_test
#define maxeltu_even_plan plain_even_plan
#define maxeltu_box_plan plain_box_plan
#define maxeltu_tolerant_plan plain_tolerant_plan
#define maxeltu_report plain_report
#define maxeltu_last_report plain_last_report
#define maxeltu_nearest_report plain_nearest_report
#define maxeltu_between plain_between
#define maxeltu_plan_cost plain_plan_cost
#define maxeltu_check_cycle plain_check_cycle
#define maxeltu_check_late plain_check_late
#define maxeltu_shortest_stretch plain_shortest_stretch
#define maxeltu_margins plain_margins
#define maxeltu_tolerance plain_tolerance
#define maxeltu_cycle_cost plain_cycle_cost
#define maxeltu_normal_form plain_normal_form
#define maxeltu_read_cycle plain_read_cycle
#define maxeltu_write_cycle plain_write_cycle
#define maxeltu_write_plan plain_write_plan
#define maxeltu_in_force plain_in_force
#define maxeltu_make_meter plain_make_meter
#define maxeltu_offer plain_offer
#define maxeltu_week_table plain_week_table
#define maxeltu_calendar_minute plain_calendar_minute
#define maxeltu_duty_minute plain_duty_minute
