/* The parts of the test `answers`. */
#ifndef ANSWERS_H
#define ANSWERS_H

/* Handles that are none, opening and closing, and configurations: answers.c. */

/* Who may sit where, and what clients are named: answers_seats.c. */
void seats_answer(void);

/* What a call of a former client of a seat answers: answers_clients.c. */
void clients_answer(void);

/* The text of the last step: answers_steps.c. */
void steps_answer(void);

/* What a client's calls answer: answers_calls.c. */
void calls_answer(void);

/* What the screen shows: answers_screen.c. */
void screen_answers(void);

/* Which words a refresh reads: answers_reads.c. */
void refreshes_read(void);

/* What can be read of views, seats and held codes: answers_views.c. */
void views_answer(void);

/* Where input goes: answers_input.c. */
void input_answers(void);

/* Which clicks are served: answers_clicks.c. */
void clicks_answer(void);

/* How the user restacks: answers_restack.c. */
void restacks_answer(void);

/* Which view was shown where: answers_shown.c. */
void shown_answers(void);

/* Which parts of the screen have changed: answers_damage.c. */
void damage_answers(void);

/* Which words are copied: answers_copy.c. */
void copies_answer(void);

#endif
