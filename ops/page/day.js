// The business day and the number of the last act, as lotd told them last.

export const told = { act: -1, day: "" };

const NIGHT = 5 * 3600 * 1000;                 // who works behind midnight is still in the day before
const number = day => Date.parse(day + "T00:00:00Z") / 86400000;
/** The days from the business day to this one, below 0 where it is over; nothing while the business day is not known. */
export const daysTo = day => (told.day ? number(day) - number(told.day) : undefined);
/** The day so many days behind the business day. */
export const dayIn = days => new Date((number(told.day) + days) * 86400000).toISOString().slice(0, 10);
/** Today by the clock of this device. */
export const today = () => new Date().toLocaleDateString("sv");
/** Whether today's business day is not open yet, from five in the morning on. */
export const isLate = () => told.day !== "" && told.day < new Date(Date.now() - NIGHT).toLocaleDateString("sv");
